//! The rows of growth: one call each by the number of locators, prefixes, routers, neighbours, options and bytes. What is searched is met last
//! of all, or not at all.

use crate::check::Check;
use crate::compare::short_row;
use crate::measure::Row;
use crate::packets::{address, advertisement, datagram, option, packet, put32, repair_outer};
use crate::plain::rules::link_local;
use crate::shape::{prefix, Shape, KEPT, LINK_SIZE, OTHER, OWN, ROUTER};
use crate::work::{work_of, Call, Work, INTERFACE};

/// One call, and its rows by how many there are of something.
pub struct Grown {
    pub name: &'static str,
    pub values: Vec<usize>,
    pub rows: Vec<Row>,
}

fn work(check: &mut Check, call: Call, number: u8, shape: Shape, input: Vec<u8>) -> Work {
    work_of(String::new(), call, number, shape.nodes(check), &[input.leak()])
}

/// A datagram to the last locator.
fn by_locators(check: &mut Check, locators: usize) -> Work {
    let inner = packet(&mut check.random, 64, 17, &link_local(OTHER));
    let last = locators as u32 - 1;
    let datagram = datagram(&mut check.random, (OTHER, OWN + last), 0, &inner, 0);
    let mut work = work(check, Call::Receive, 0, Shape { locators, ..Shape::LEAST }, datagram);
    work.interface = INTERFACE + last as u8;
    work
}

/// A datagram that passes by the last prefix; by fe80::/64 where there is none.
fn by_prefixes(check: &mut Check, prefixes: usize) -> Work {
    let source = match prefixes {
        0 => link_local(OTHER),
        _ => address(&prefix(prefixes as u8 - 1), 0, OTHER),
    };
    let inner = packet(&mut check.random, 64, 17, &source);
    let datagram = datagram(&mut check.random, (OTHER, OWN), 0, &inner, 0);
    work(check, Call::Receive, 0, Shape { prefixes, ..Shape::LEAST }, datagram)
}

/// A datagram that is refused by 10, from none of the routers.
fn by_routers(check: &mut Check, routers: usize) -> Work {
    let inner = packet(&mut check.random, 64, 17, &link_local(OTHER));
    let mut datagram = datagram(&mut check.random, (OTHER, OWN), 0, &inner, 0);
    put32(&mut datagram, 12, OTHER + 1);
    repair_outer(&mut datagram);
    work(check, Call::Receive, 10, Shape { routers, ..Shape::LEAST }, datagram)
}

/// An asking; 22 where there is no router.
fn ask_by_routers(check: &mut Check, routers: usize) -> Work {
    let number = if routers == 0 { 22 } else { 0 };
    let mut work = work(check, Call::Ask, number, Shape { routers, ..Shape::LEAST }, Vec::new());
    work.step = 1;
    work
}

/// A packet to the neighbour that is kept longest.
fn by_neighbours(check: &mut Check, kept: usize) -> Work {
    let packet = packet(&mut check.random, 64, 17, &link_local(OWN));
    let mut work = work(check, Call::Send, 0, Shape { kept: kept as u32, ..Shape::LEAST }, packet);
    work.next_hop = link_local(KEPT);
    work
}

/// An advertisement with so many options of 8 bytes.
fn by_options(check: &mut Check, count: usize) -> Work {
    let options: Vec<u8> = (0..count).flat_map(|_| option(&mut check.random, 24, 1, 1800)).collect();
    let heard = advertisement(&mut check.random, &link_local(ROUTER), 1800, &options);
    work(check, Call::Hear, 0, Shape { routers: 1, ..Shape::LEAST }, heard)
}

fn send_by_bytes(check: &mut Check, length: usize) -> Work {
    let packet = packet(&mut check.random, length, 17, &link_local(OWN));
    work(check, Call::Send, 0, Shape { link_size: LINK_SIZE, ..Shape::LEAST }, packet)
}

fn receive_by_bytes(check: &mut Check, length: usize) -> Work {
    let inner = packet(&mut check.random, length, 17, &link_local(OTHER));
    let datagram = datagram(&mut check.random, (OTHER, OWN), 0, &inner, 0);
    work(check, Call::Receive, 0, Shape::LEAST, datagram)
}

pub fn rows(check: &mut Check) -> Vec<Grown> {
    type Maker = fn(&mut Check, usize) -> Work;
    let calls: [(&str, Maker, [usize; 4]); 8] = [
        ("locators: receive", by_locators, [1, 2, 4, 8]),
        ("prefixes: receive", by_prefixes, [0, 1, 4, 8]),
        ("routers: receive, 10", by_routers, [0, 1, 4, 16]),
        ("routers: ask", ask_by_routers, [0, 1, 4, 16]),
        ("neighbours: send", by_neighbours, [0, 1, 16, 64]),
        ("options: advertisement", by_options, [0, 3, 16, 100]),
        ("bytes: receive", receive_by_bytes, [64, 576, 1480, 8980]),
        ("bytes: send", send_by_bytes, [64, 576, 1480, 8980]),
    ];
    let grown = |(name, maker, values): (&'static str, Maker, [usize; 4])| {
        let works = values.map(|value| maker(check, value));
        Grown { name, values: values.into(), rows: works.map(|work| short_row(check, work)).into() }
    };
    calls.into_iter().map(grown).collect()
}
