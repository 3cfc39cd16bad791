//! Datagrams that come in pieces: cut at random, damaged, handed over in any order, and joined.

use crate::check::{hex, same, Check};
use crate::nodes::Nodes;
use crate::packets;
use crate::plain::pieces::{Key, ROOM};
use crate::random::Random;
use crate::totals::Call;

/// A part of a datagram's payload, from the offset on, which counts units of 8 bytes.
#[derive(Clone)]
pub struct Part {
    pub key: Key,
    pub offset: usize,
    pub more: bool,
    pub payload: Vec<u8>,
}

impl Part {
    pub fn whole(key: Key, payload: &[u8]) -> Part {
        Part { key, offset: 0, more: false, payload: payload.to_vec() }
    }

    /// The piece; what no rule names is random.
    pub fn bytes(&self, random: &mut Random) -> Vec<u8> {
        packets::piece(random, &self.key, self.offset, self.more, &self.payload)
    }

    /// The part cut in two before that byte of it, a multiple of 8.
    fn cut_at(self, at: usize) -> [Part; 2] {
        let (before, behind) = self.payload.split_at(at);
        let behind = Part { offset: self.offset + at / 8, payload: behind.to_vec(), ..self };
        [Part { more: true, payload: before.to_vec(), ..self }, behind]
    }
}

/// A payload cut into pieces, some of them long and some short.
pub fn cut(random: &mut Random, key: Key, payload: &[u8]) -> Vec<Part> {
    let step = random.one_of(&[8, 8, 16, 64, 512]);
    let mut parts = Vec::new();
    let mut rest = Part::whole(key, payload);
    loop {
        let at = step * random.between(1, 4);
        if at >= rest.payload.len() {
            parts.push(rest);
            return parts;
        }
        let [part, behind] = rest.cut_at(at);
        parts.push(part);
        rest = behind;
    }
}

/// Changes one thing.
pub fn damage(random: &mut Random, part: &mut Part) {
    let length = part.payload.len();
    match random.below(9) {
        0 => part.more = !part.more,
        1 => part.offset = (part.offset + 1) & 0x1fff,
        2 => part.offset = part.offset.saturating_sub(1),
        3 => part.offset = random.one_of(&[0, 1, 63, 64, 254, 255, 256, 0x1fff]),
        4 => part.payload.truncate(length.saturating_sub(random.one_of(&[1, 8, 8, 4000]))),
        5 => part.payload.resize(length + random.one_of(&[1, 8, 8, 2048]), 0x33),
        6 if length > 0 => part.payload[random.below(length)] ^= 1 << random.below(8),
        7 => part.key.identification ^= 1 << random.below(16),
        _ => part.key.protocol = random.one_of(&[4, 40, 42, 41]),
    }
}

/// The parts in any order, each of them once or more often before the last.
fn shuffled(random: &mut Random, mut parts: Vec<Part>) -> (Vec<Part>, Part) {
    for place in (1..parts.len()).rev() {
        parts.swap(place, random.below(place + 1));
    }
    let last = parts.pop().expect("some parts");
    let mut given = Vec::new();
    for place in 0..parts.len() {
        given.push(parts[place].clone());
        while random.once_in(4) {
            given.push(parts[random.below(place + 1)].clone());
        }
    }
    (given, last)
}

/// What comes of all pieces of one cutting, with others in between, is what comes of the whole datagram in the last one's place (R23.19).
pub fn joins(check: &mut Check, nodes: &Nodes, key: Key, payload: &[u8], interface: u8) {
    let parts = cut(&mut check.random, key, payload);
    let latest = nodes.plain.latest();
    let live = || nodes.named().places().iter().filter(|place| place.is_live(latest));
    if parts.len() < 2 || payload.len() > ROOM || live().count() == 8 || live().any(|place| place.key == key) {
        return;
    }
    let (given, last) = shuffled(&mut check.random, parts);
    let mut nodes = nodes.clone();
    let mut numbers = Vec::new();
    for part in given {
        let (piece, time) = (part.bytes(&mut check.random), in_time(&mut check.random, latest));
        numbers.push(nodes.receive(check, &piece, interface, time));
        if check.random.once_in(3) {
            other_piece(check, &mut nodes, &part, interface);
        }
        if check.random.once_in(3) {
            piece_of_other_service(check, &mut nodes, &part);
        }
    }
    let (whole, last) = (Part::whole(key, payload).bytes(&mut check.random), last.bytes(&mut check.random));
    let time = in_time(&mut check.random, latest);
    let expected = nodes.clone().receive(check, &whole, interface, time);
    let joined = nodes.receive(check, &last, interface, time);
    let call = || format!("the pieces of {}, the last of which {}", hex(&whole), hex(&last));
    same("joined", &expected, &joined, &call);
    let before = match expected {
        // 11 where the node has no such service.
        Err(number @ (4 | 6 | 7 | 11)) => Err(number),
        _ => Err(27),
    };
    same("before the last", &vec![before; numbers.len()], &numbers, &call);
    check.totals.count(Call::Joined, expected.err().unwrap_or(0).into());
}

/// A time under 30 s from that one.
fn in_time(random: &mut Random, first: u32) -> u32 {
    first.saturating_add(random.below(30) as u32)
}

/// A piece with the same bytes under another key.
fn other_piece(check: &mut Check, nodes: &mut Nodes, part: &Part, interface: u8) {
    let mut part = part.clone();
    part.key.identification ^= 1 << check.random.below(16);
    let piece = part.bytes(&mut check.random);
    _ = nodes.receive(check, &piece, interface, 0);
}

/// The same piece for the other service, if there is one, to which it is sent.
fn piece_of_other_service(check: &mut Check, nodes: &mut Nodes, part: &Part) {
    let named = nodes.service;
    let other = u8::from(named == 0);
    let locator = nodes.through(other).named().settings().locators[0];
    let part = Part { key: Key { destination: locator.address, ..part.key }, ..part.clone() };
    let piece = part.bytes(&mut check.random);
    _ = nodes.receive(check, &piece, locator.interface, 0);
    nodes.service = named;
}
