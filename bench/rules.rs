//! The rows of the rules without state: checksums, and wrapping in an outer header.

use crate::best;
use crate::inside;
use crate::measure::{Row, Turns, COUNTED};
use crate::plain::rules::{self, Outer, Refusal};
use crate::random::Random;
use bogtrumpet::raw;
use std::hint::black_box;

/// Longer than any datagram.
const ROOM: usize = 65536;

/// Four inputs of the length, one behind the other.
fn inputs(random: &mut Random, length: usize) -> &'static [u8] {
    let mut inputs = vec![0; 4 * length];
    random.fill(&mut inputs);
    inputs.leak()
}

fn each(inputs: &[u8]) -> [&[u8]; 4] {
    let length = inputs.len() / 4;
    [0, 1, 2, 3].map(|place| &inputs[place * length..][..length])
}

/// Turns of the work, the inputs in turn.
fn turns(inputs: &'static [u8], work: impl Fn(usize, &[u8], &mut [u8]) + 'static) -> Option<Turns> {
    let inputs = each(inputs);
    let mut out = vec![0; ROOM];
    Some(Box::new(move |turns| {
        let inputs = black_box(&inputs);
        for place in (0..turns).map(|turn| turn as usize % 4) {
            work(place, inputs[place], &mut out);
        }
        black_box(&out);
    }))
}

fn checksum(random: &mut Random, length: usize) -> Row {
    let inputs = inputs(random, length);
    for input in each(inputs) {
        let sums = [best::checksum(0, input), rules::checksum(0, input)];
        assert_eq!(sums, [raw::checksum(0, input); 2], "checksum of {length} bytes");
    }
    let sum: u64 = each(inputs).iter().map(|input| u64::from(best::checksum(0, input))).sum();
    assert_eq!(sum, inside::checksums(inputs, 4), "checksums of {length} bytes");
    let best = turns(inputs, |_, input, _| _ = black_box(best::checksum(black_box(0), input)));
    let library = turns(inputs, |_, input, _| _ = black_box(raw::checksum(black_box(0), input)));
    let inside: Turns = Box::new(|turns| _ = black_box(inside::checksums(black_box(inputs), turns)));
    Row { name: format!("checksum {length}"), ways: [best, library, Some(inside)], counted: COUNTED }
}

#[inline(never)]
fn best_wrap(outer: &Outer, packet: &[u8], out: &mut [u8]) -> Result<usize, Refusal> {
    best::wrap(outer, packet, out)
}

/// Four headers, for the four packets.
fn outers(random: &mut Random) -> [Outer; 4] {
    [0, 1, 2, 3].map(|_| Outer {
        identification: random.next() as u16,
        dont_fragment: random.once_in(2),
        ttl: random.next() as u8,
        protocol: 41,
        source: random.next() as u32,
        destination: random.next() as u32,
    })
}

fn library_outer(outer: Outer) -> raw::Outer {
    let Outer { identification, dont_fragment, ttl, protocol, source, destination } = outer;
    let dont_fragment = dont_fragment.into();
    raw::Outer { identification, dont_fragment, ttl, protocol, source, destination }
}

fn wrap(random: &mut Random, length: usize) -> Row {
    let inputs = inputs(random, length);
    let outers = outers(random);
    let library_outers = outers.map(library_outer);
    for (place, input) in each(inputs).iter().enumerate() {
        let [mut best, mut plain, mut library] = [0; 3].map(|_| vec![0x55; ROOM]);
        let written = raw::wrap(library_outers[place], input, &mut library);
        assert_eq!(best_wrap(&outers[place], input, &mut best), Ok(written.length), "{length} bytes wrapped");
        assert_eq!(rules::wrap(&outers[place], input, &mut plain), Ok(written.length), "{length} bytes wrapped");
        assert!(best == library && plain == library, "{length} bytes wrapped");
    }
    let best = turns(inputs, move |place, input, out| _ = black_box(best_wrap(&outers[place], input, out)));
    let library = turns(inputs, move |place, input, out| {
        black_box(raw::wrap(library_outers[place], input, out));
    });
    Row { name: format!("wrap {length}"), ways: [best, library, None], counted: COUNTED }
}

pub fn rows(random: &mut Random) -> Vec<Row> {
    let mut rows: Vec<Row> = [20, 60, 120, 576, 1500, 65535].map(|length| checksum(random, length)).into();
    rows.extend([20, 64, 1280, 1480, 65515].map(|length| wrap(random, length)));
    rows
}
