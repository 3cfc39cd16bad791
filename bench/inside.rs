//! The library's own loops (crate bench_loops): many calls in one, so that the crossing from C and the node's copy there count once.

use crate::measure::Turns;
use crate::nodes::number;
use crate::plain::{Received, Sent};
use crate::work::{Call, Turn, Work, INTERFACE, LOCATOR, ROOM, START};
use bogtrumpet::raw::{Address, Node, Paths};
use std::hint::black_box;

// Each gives the sum of what its calls answer: a refused one its number, another its length or size.
extern "C" {
    fn bench_receive(
        node: Node,
        all: *const u8,
        length: usize,
        size: usize,
        interface: u8,
        time: u32,
        memory: *mut u8,
        memory_length: usize,
        count: u32,
    ) -> u64;
    fn bench_send(
        node: Node,
        all: *const u8,
        length: usize,
        size: usize,
        next_hop: Address,
        locator: usize,
        time: u32,
        out: *mut u8,
        room: usize,
        count: u32,
    ) -> u64;
    fn bench_checksum(start: u32, all: *const u8, length: usize, size: usize, count: u32) -> u64;
    fn bench_lookup(table: Paths, link: u16, first: u32, count: u32, now: u32) -> u64;
}

/// The sum of so many checksums, of four parts in turn.
pub fn checksums(all: &[u8], count: u32) -> u64 {
    // SAFETY: pointers and lengths are those of slices; so below.
    unsafe { bench_checksum(0, all.as_ptr(), all.len(), all.len() / 4, count) }
}

/// The sum of the sizes toward so many neighbours, one number after the other.
pub fn sizes(table: &Paths, link: u16, first: u32, count: u32, now: u32) -> u64 {
    unsafe { bench_lookup(*table, link, first, count, now) }
}

/// The sum of what so many calls answer, of a kind of call that has a loop: of the first service.
fn many(work: &Work, memory: &mut [u8], out: &mut [u8], count: u32) -> Option<u64> {
    if work.nodes.service != 0 || work.all.is_empty() {
        return None;
    }
    let (node, all, length) = (work.nodes.library, work.all.as_ptr(), work.all.len());
    let (size, next_hop) = (length / 4, Address { bytes: work.next_hop });
    let (bytes, lent) = (memory.as_mut_ptr(), memory.len());
    let (output, room) = (out.as_mut_ptr(), out.len());
    unsafe {
        match work.call {
            Call::Receive => Some(bench_receive(node, all, length, size, INTERFACE, START, bytes, lent, count)),
            Call::Send => Some(bench_send(node, all, length, size, next_hop, LOCATOR, START, output, room, count)),
            Call::Piece | Call::Last | Call::Report | Call::Ask | Call::Hear | Call::Advertise => None,
        }
    }
}

/// The sum in plain Rust.
fn plain_many(work: &Work, memory: &mut [u8], out: &mut [u8], count: u32) -> u64 {
    let mut node = work.nodes.plain;
    let mut sum = 0;
    for turn in 0..count {
        let Turn { service, input, next_hop, advertised, interface, locator, time, memory, out, .. } =
            work.turn(turn, memory, out);
        let answer = match work.call {
            Call::Receive | Call::Piece | Call::Last => {
                node.receive(service, input, interface, time, memory).map(|received| match received {
                    Received::Whole(part) | Received::Joined(part) => part.len() as u64,
                })
            }
            Call::Send => node.send(service, input, next_hop, locator, time, out).map(|sent| match sent {
                Sent::Wrapped { length } => length as u64,
                Sent::TooBig { size, .. } => size.into(),
            }),
            Call::Report => node.report(input, time).map(|(_, size)| size.into()),
            Call::Ask => node.ask(service, locator, time, out).map(u64::from),
            Call::Hear => node.hear(service, input, time).map(u64::from),
            Call::Advertise => {
                node.advertise(service, input, locator, &advertised.plain, out).map(|length| length as u64)
            }
        };
        sum += answer.unwrap_or_else(|_| number(&answer).into());
    }
    sum
}

/// Sums and outputs of some turns must be the same.
fn compare(work: &Work) {
    for count in [0, 1, 2, 3, 255, 256] {
        let (mut plain, mut library) = ([0x55; ROOM], [0x55; ROOM]);
        let mut memories = [work.nodes.memory().clone(), work.nodes.memory().clone()];
        let expected = plain_many(work, &mut memories[0], &mut plain, count);
        let sum = many(work, &mut memories[1], &mut library, count);
        assert_eq!(Some(expected), sum, "{} {count} times", work.name);
        assert!(plain == library && memories[0] == memories[1], "{} {count} times: outputs", work.name);
    }
}

pub fn way(work: &'static Work) -> Option<Turns> {
    let (mut memory, mut out) = (work.nodes.memory().clone(), vec![0; ROOM]);
    many(work, &mut memory, &mut out, 0)?;
    compare(work);
    Some(Box::new(move |turns| {
        black_box(many(black_box(work), &mut memory, &mut out, turns));
        black_box((&memory, &out));
    }))
}
