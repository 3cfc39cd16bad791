//! The rows of comparing: two recordings of 1 MiB each, in datagrams of 1,500 bytes or of 60.

use crate::best;
use crate::check::Check;
use crate::measure::{Row, Turns};
use crate::plain::recordings;
use crate::random::Random;
use bogtrumpet::raw;
use std::hint::black_box;

const LENGTH: usize = 1 << 20;
const LONG: u16 = 1500;
const SHORT: u16 = 60;
/// Room for a report of runs of one byte.
const ROOM: usize = 6 * LENGTH;

/// A recording in datagrams of that size, and one that differs where it is said.
fn pair(random: &mut Random, size: u16, mut differs: impl FnMut(&mut Random, usize) -> bool) -> [&'static [u8]; 2] {
    let count = (LENGTH - 2) / (3 + usize::from(size));
    let mut both = [0, 1].map(|_| (count as u16).to_be_bytes().to_vec());
    for _ in 0..count {
        let mut one = vec![0; size.into()];
        random.fill(&mut one);
        let other: Vec<u8> = (0..one.len()).map(|at| one[at] ^ u8::from(differs(random, at))).collect();
        for (recording, datagram) in both.iter_mut().zip([&one[..], &other]) {
            recording.push(random.next() as u8);
            recording.extend(size.to_be_bytes());
            recording.extend(datagram);
        }
    }
    both.map(|recording| &*recording.leak())
}

type Compare = fn(bool, &[u8], &[u8], &mut [u8]) -> (usize, u8);

fn by_best(masked: bool, first: &[u8], second: &[u8], out: &mut [u8]) -> (usize, u8) {
    best::compare(masked, first, second, out)
        .map_or_else(|refusal| (0, refusal as u8), |(length, more)| (length, more as u8))
}

fn by_plain(masked: bool, first: &[u8], second: &[u8], out: &mut [u8]) -> (usize, u8) {
    recordings::compare(masked, first, second, out)
        .map_or_else(|refusal| (0, refusal as u8), |(length, more)| (length, more as u8))
}

fn by_library(masked: bool, first: &[u8], second: &[u8], out: &mut [u8]) -> (usize, u8) {
    let compared = raw::compare(masked, first, second, out);
    (compared.length, compared.more + compared.number)
}

/// The three give the same answer and leave the same bytes.
fn same(masked: bool, [first, second]: [&[u8]; 2], room: usize) {
    let ways: [Compare; 3] = [by_best, by_plain, by_library];
    let given = ways.map(|way| {
        let mut out = vec![0x55; room];
        (way(masked, first, second, &mut out), out)
    });
    assert!(given[0] == given[1], "plain Rust, {first:?} {second:?} {masked} {room}");
    assert!(given[0] == given[2], "the library, {first:?} {second:?} {masked} {room}");
}

/// Random pairs of short recordings, before anything is measured.
pub fn compare(check: &mut Check) {
    let random = &mut check.random;
    for turn in 0..300_000 {
        let rate = random.one_of(&[1, 2, 3, 10, 1000]);
        let mut both = [vec![0, 1], vec![0, 1]];
        let (common, more) = (random.between(0, 200), random.between(0, 20) * random.below(2));
        let mut one = vec![0; common + more];
        random.fill(&mut one);
        let other: Vec<u8> = one[..common].iter().map(|byte| byte ^ u8::from(random.once_in(rate))).collect();
        for (recording, datagram) in both.iter_mut().zip([one, other]) {
            recording.extend([0, 0, datagram.len() as u8]);
            recording.extend(datagram);
        }
        if turn % 16 == 0 {
            both[0].truncate(random.below(common + more + 6));
        }
        let [first, second] = &both;
        let pair = if turn % 2 == 0 { [&first[..], second] } else { [&second[..], first] };
        same(turn % 4 < 2, pair, random.one_of(&[0, 6, 30, 600]));
    }
    println!("300000 pairs of recordings: the library and both of plain Rust the same");
}

fn turns(masked: bool, pair: [&'static [u8]; 2], way: Compare) -> Option<Turns> {
    let mut out = vec![0; ROOM];
    Some(Box::new(move |turns| {
        let [first, second] = black_box(pair);
        for _ in 0..turns {
            black_box(way(black_box(masked), first, second, &mut out));
        }
        black_box(&out);
    }))
}

fn row(name: &str, masked: bool, pair: [&'static [u8]; 2]) -> Row {
    for masked in [false, true] {
        same(masked, pair, ROOM);
        same(masked, pair, 6000);
    }
    Row { name: name.into(), ways: [turns(masked, pair, by_best), turns(masked, pair, by_library), None], counted: 2 }
}

pub fn rows(random: &mut Random) -> Vec<Row> {
    vec![
        row("compare, equal", false, pair(random, LONG, |_, _| false)),
        row("compare, equal, masked", true, pair(random, LONG, |_, _| false)),
        row("compare, equal, of 60 bytes", false, pair(random, SHORT, |_, _| false)),
        row("compare, one hop on", false, pair(random, LONG, |_, at| [8, 10, 11].contains(&at))),
        row("compare, one hop on, masked", true, pair(random, LONG, |_, at| [8, 10, 11].contains(&at))),
        row("compare, 1 byte in 100", false, pair(random, LONG, |random, _| random.once_in(100))),
        row("compare, every other byte", false, pair(random, LONG, |_, at| at % 2 == 0)),
        row("compare, by a coin", false, pair(random, LONG, |random, _| random.once_in(2))),
        row("compare, all bytes", false, pair(random, LONG, |_, _| true)),
    ]
}
