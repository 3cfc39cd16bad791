//! The rows that stand beside the yardstick: another plain Rust, std alone and no unsafe, whose instructions were counted on these operations in
//! the same way. One locator, no prefix; no router, or four where routers are asked or heard.

use crate::check::Check;
use crate::compare::short_row;
use crate::measure::{Row, COUNTED};
use crate::packets::{advertisement, datagram, option, packet, put16, put32, repair_outer, size_report};
use crate::plain::rules::link_local;
use crate::shape::{Shape, KEPT, NEXT_HOP, OTHER, OWN, ROUTER};
use crate::work::{work_of, Call, Work};

/// A row with the yardstick's instructions and the goal, the most times of them that the library's are to be.
pub struct Held {
    pub row: Row,
    pub yardstick: f64,
    pub goal: f64,
}

/// One row: what is done, the yardstick's instructions, and the goal.
type Line = (Work, f64, f64);

/// A work of that shape whose input is the same in every turn.
fn same(check: &mut Check, name: &str, call: Call, number: u8, shape: Shape, input: Vec<u8>) -> Work {
    work_of(name.into(), call, number, shape.nodes(check), &[input.leak()])
}

/// Datagrams from one neighbour, by fe80::/64.
fn receives(check: &mut Check) -> Vec<Line> {
    let mut whole = |length: usize| {
        let inner = packet(&mut check.random, length - 20, 17, &link_local(OTHER));
        datagram(&mut check.random, (OTHER, OWN), 0, &inner, 0)
    };
    let (short, long) = (whole(60), whole(1500));
    let mut refused = [2, 3, 6, 10].map(|number| (number, short.clone()));
    for (number, datagram) in &mut refused {
        match number {
            2 => put16(datagram, 2, 61),
            3 => datagram[8] ^= 1,
            6 => put32(datagram, 16, OWN + 1),
            _ => put32(datagram, 12, OTHER + 1),
        }
        if *number != 3 {
            repair_outer(datagram);
        }
    }
    let mut lines = Vec::new();
    for (name, datagram) in [("receive 60 bytes", short), ("receive 1500 bytes", long)] {
        lines.push((same(check, name, Call::Receive, 0, Shape::LEAST, datagram), 132.0, 1.3));
    }
    for ((number, datagram), yardstick) in refused.into_iter().zip([44.0, 62.0, 93.0, 148.0]) {
        let name = format!("receive, refused by {number}");
        lines.push((same(check, &name, Call::Receive, number, Shape::LEAST, datagram), yardstick, 1.5));
    }
    lines
}

fn send(check: &mut Check, name: &str, number: u8, length: usize, kept: u32, end: u32) -> Work {
    let packet = packet(&mut check.random, length, 17, &link_local(OWN));
    let mut work = same(check, name, Call::Send, number, Shape { kept, ..Shape::LEAST }, packet);
    work.next_hop = link_local(end);
    work
}

fn sends(check: &mut Check) -> Vec<Line> {
    let lengths = [(64, 186.0), (576, 263.0), (1280, 323.0), (1480, 347.0)];
    let line = |(length, yardstick)| (send(check, &format!("send {length}"), 0, length, 0, NEXT_HOP), yardstick, 1.2);
    let mut lines: Vec<Line> = lengths.into_iter().map(line).collect();
    lines.push((send(check, "send 64, 64 kept, found", 0, 64, 64, NEXT_HOP), 198.0, 1.5));
    lines.push((send(check, "send 64, 64 kept, not found", 0, 64, 64, OTHER), 191.0, 1.5));
    lines.push((send(check, "send 1500, Too Big written", 14, 1500, 0, NEXT_HOP), 760.0, 1.3));
    lines
}

/// Reports of 36 bytes about so many neighbours from that on.
fn report(check: &mut Check, name: &str, number: u8, kept: u32, first: u32, count: u32) -> Work {
    let message = |neighbour| {
        let mut message = size_report(&mut check.random, 1400, 1500, (OWN, neighbour), 0, 8);
        // The checksum is wrong.
        message[2] ^= u8::from(number == 16);
        &*message.leak()
    };
    let messages: Vec<&[u8]> = (first..first + count).map(message).collect();
    let nodes = Shape { kept, ..Shape::LEAST }.nodes(check);
    work_of(name.into(), Call::Report, number, nodes, &messages)
}

/// New neighbours are so many that each has gone from the table, or too old, when its turn comes again; the same one is the newest of 64, and
/// reported every 600 s.
fn reports(check: &mut Check) -> Vec<Line> {
    let full = report(check, "report, a full table", 0, 64, OTHER, 128);
    let mut newest = report(check, "report, the same neighbour", 0, 64, KEPT + 63, 1);
    newest.step = 600;
    let refused = report(check, "report, refused by 16", 16, 0, OTHER, 1);
    vec![(full, 246.0, 2.0), (newest, 228.0, 2.0), (refused, 60.0, 3.0)]
}

/// Four routers, of which one is due in every turn.
fn routed(check: &mut Check) -> Vec<Line> {
    let shape = Shape { routers: 4, ..Shape::LEAST };
    let mut ask = same(check, "ask", Call::Ask, 0, shape, Vec::new());
    ask.step = 1;
    let options = [(3, 4, 3600), (24, 2, 1800), (1, 1, 0)];
    let options = options.map(|(kind, units, lifetime)| option(&mut check.random, kind, units, lifetime)).concat();
    let heard = advertisement(&mut check.random, &link_local(ROUTER + 2), 1800, &options);
    let heard = same(check, "advertisement, three options", Call::Hear, 0, shape, heard);
    let other = packet(&mut check.random, 1480, 17, &link_local(ROUTER + 2));
    let other = same(check, "hear 1480, no advertisement", Call::Hear, 20, shape, other);
    vec![(ask, 153.0, 2.0), (heard, 375.0, 2.0), (other, 20.0, 3.0)]
}

pub fn rows(check: &mut Check) -> Vec<Held> {
    let mut lines = receives(check);
    lines.extend(sends(check));
    // Fewer turns than fill the table.
    let new = report(check, "report, new", 0, 0, OTHER, 128);
    lines.push((new, 244.0, 2.0));
    lines.extend(reports(check));
    lines.extend(routed(check));
    let held = |(work, yardstick, goal): Line| {
        let counted = if work.name == "report, new" { 32 } else { COUNTED };
        Held { row: Row { counted, ..short_row(check, work) }, yardstick, goal }
    };
    lines.into_iter().map(held).collect()
}
