//! The edges of joining (R23): orders and repeats, ends and overlaps, lengths, keys, places, ages and memory, each with the numbers that it
//! must give; pieces against pieces, and every byte of one changed.

use crate::check::{same, Check};
use crate::edges::{changed, node, settings, LOCATOR};
use crate::nodes::Nodes;
use crate::packets;
use crate::pieces::{joins, Part};
use crate::plain::pieces::{Key, MEMORY, ROOM};
use crate::plain::rules::link_local;
use crate::plain::{Locator, Settings};
use std::ops::Range;

const NEIGHBOUR: u32 = 0x0a01_0001;
const KEY: Key = Key { source: NEIGHBOUR, destination: LOCATOR, identification: 5, protocol: 41 };
const WAITS: u8 = 27;
const FULL: u8 = 28;
const APART: u8 = 29;
const UNFIT: u8 = 30;

pub fn edges(check: &mut Check) {
    orders(check);
    nine(check);
    lengths(check);
    offsets(check);
    overlaps(check);
    repeats(check);
    ends(check);
    keys(check);
    places(check);
    full(check);
    ages(check);
    judged_when_joined(check);
    memory(check);
    pairs(check);
    cuttings(check);
    changed_pieces(check);
}

/// A node to which a datagram comes in pieces. The time of a call is the latest, unless it is set.
struct Cut {
    nodes: Nodes,
    key: Key,
    payload: Vec<u8>,
    interface: u8,
    time: u32,
}

impl Cut {
    /// A datagram with a packet of that length, which is delivered where it is joined.
    fn new(check: &mut Check, length: usize) -> Cut {
        Cut::with(check, &settings(), length)
    }

    fn with(check: &mut Check, settings: &Settings, length: usize) -> Cut {
        let payload = packets::packet(&mut check.random, length, 17, &link_local(NEIGHBOUR));
        Cut { nodes: node(check, settings), key: KEY, payload, interface: 7, time: 0 }
    }

    /// The bytes of the payload from one to another, which must give the number; behind its end stand others.
    fn gives(&mut self, check: &mut Check, number: u8, bytes: Range<usize>, more: bool) {
        let mut payload = self.payload.clone();
        payload.resize(payload.len().max(bytes.end), 0x33);
        let part = Part { key: self.key, offset: bytes.start / 8, more, payload: payload[bytes].to_vec() };
        self.part_gives(check, number, &part);
    }

    fn part_gives(&mut self, check: &mut Check, number: u8, part: &Part) {
        let piece = part.bytes(&mut check.random);
        let given = self.nodes.receive(check, &piece, self.interface, self.time);
        let call = || format!("{} bytes from unit {}, more {}", part.payload.len(), part.offset, part.more);
        same("number", &number, &given.clone().err().unwrap_or(0), &call);
        if let Ok(packet) = given {
            same("packet", &self.payload, &packet, &call);
        }
    }

    /// The bytes as the last piece, if they end the payload.
    fn piece(&mut self, check: &mut Check, number: u8, bytes: Range<usize>) {
        let more = bytes.end < self.payload.len();
        self.gives(check, number, bytes, more);
    }

    /// Whether each place is in use.
    fn used(&self) -> [bool; 8] {
        self.nodes.library.first.pieces.places.map(|place| place.used != 0)
    }

    fn nothing_waits(&self) {
        same("places in use", &[false; 8], &self.used(), &|| "nothing waits any more".into());
    }
}

/// Two pieces in both orders, and once more each.
fn orders(check: &mut Check) {
    let mut cut = Cut::new(check, 100);
    for [first, last] in [[0..48, 48..100], [48..100, 0..48]] {
        for repeats in 0..3 {
            cut.piece(check, WAITS, first.clone());
            for _ in 0..repeats {
                cut.piece(check, WAITS, first.clone());
            }
            cut.piece(check, 0, last.clone());
            cut.nothing_waits();
        }
    }
}

/// Nine pieces of 8 bytes in many orders, with repeats.
fn nine(check: &mut Check) {
    let mut cut = Cut::new(check, 72);
    let mut order: Vec<usize> = (0..9).collect();
    for _ in 0..300 {
        for place in (1..9).rev() {
            order.swap(place, check.random.below(place + 1));
        }
        for (come, &unit) in order.iter().enumerate() {
            cut.piece(check, if come == 8 { 0 } else { WAITS }, 8 * unit..8 * unit + 8);
            while come < 8 && check.random.once_in(2) {
                let again = order[check.random.below(come + 1)];
                cut.piece(check, WAITS, 8 * again..8 * again + 8);
            }
        }
        cut.nothing_waits();
    }
}

/// Payloads about every length that matters, up to 2,048 and past it, in two pieces and in both orders.
fn lengths(check: &mut Check) {
    for length in (41..=140).chain(500..=530).chain(2030..=2060) {
        let mut cut = Cut::new(check, length);
        let (last, joined) = if length <= ROOM { (WAITS, 0) } else { (UNFIT, UNFIT) };
        cut.piece(check, WAITS, 0..40);
        cut.piece(check, joined, 40..length);
        cut.nodes = node(check, &settings());
        cut.piece(check, last, 40..length);
        cut.piece(check, if length <= ROOM { 0 } else { WAITS }, 0..40);
    }
    let mut cut = Cut::new(check, 2048);
    cut.piece(check, WAITS, 0..1024);
    cut.piece(check, 0, 1024..2048);
    cut.gives(check, UNFIT, 1024..2049, false);
    // Empty, and no multiple of 8 though others follow.
    for (bytes, more) in [(0..0, true), (8..8, false), (8..8, true), (2048..2048, false)] {
        cut.gives(check, UNFIT, bytes, more);
    }
    for length in 1..200 {
        cut.nodes = node(check, &settings());
        cut.gives(check, if length % 8 == 0 { WAITS } else { UNFIT }, 16..16 + length, true);
        cut.nodes = node(check, &settings());
        cut.gives(check, WAITS, 16..16 + length, false);
    }
}

/// Every offset that a header can have.
fn offsets(check: &mut Check) {
    let mut cut = Cut::new(check, 40);
    for offset in 1..0x2000 {
        for (length, more) in [(1, false), (7, false), (8, false), (8, true), (40, true), (1480, false)] {
            cut.key.identification = cut.key.identification.wrapping_add(1);
            cut.time += 4;
            let fits = 8 * offset + length <= ROOM;
            let part = Part { key: cut.key, offset, more, payload: vec![1; length] };
            cut.part_gives(check, if fits { WAITS } else { UNFIT }, &part);
        }
    }
}

/// Pieces that overlap by a unit or more, or hold the same bytes in other parts; what is dropped can be joined once more.
fn overlaps(check: &mut Check) {
    let mut cut = Cut::new(check, 200);
    for [first, second] in [
        [0..48, 40..200],
        [40..200, 0..48],
        [0..48, 40..88],
        [48..96, 40..56],
        [48..96, 88..104],
        [48..96, 40..104],
        [48..96, 0..192],
        [192..200, 184..200],
    ] {
        cut.piece(check, WAITS, first);
        cut.piece(check, APART, second);
        cut.nothing_waits();
        cut.piece(check, WAITS, 0..48);
        cut.piece(check, 0, 48..200);
    }
    // All bytes of these are held already, and equal.
    cut.piece(check, WAITS, 0..48);
    cut.piece(check, WAITS, 96..144);
    for bytes in [0..48, 0..8, 40..48, 8..40, 96..144, 104..136] {
        cut.piece(check, WAITS, bytes);
    }
    cut.piece(check, WAITS, 48..96);
    cut.piece(check, WAITS, 0..144);
    cut.piece(check, 0, 144..200);
    // Units next to those that are held.
    cut.piece(check, WAITS, 48..96);
    cut.piece(check, WAITS, 40..48);
    cut.piece(check, WAITS, 96..104);
    cut.piece(check, WAITS, 0..40);
    cut.piece(check, 0, 104..200);
    cut.nothing_waits();
}

/// A repeat with one byte changed, and of which the memory has one changed.
fn repeats(check: &mut Check) {
    let mut cut = Cut::new(check, 101);
    for (bytes, more) in [(48..96, true), (48..101, false)] {
        for at in bytes.clone() {
            for in_memory in [false, true] {
                cut.gives(check, WAITS, bytes.clone(), more);
                cut.gives(check, WAITS, bytes.clone(), more);
                let changed = if in_memory { &mut cut.nodes.memory_mut()[at] } else { &mut cut.payload[at] };
                *changed ^= 1 << check.random.below(8);
                cut.gives(check, APART, bytes.clone(), more);
                cut.nothing_waits();
            }
        }
    }
}

/// Pieces that disagree about the end, in both orders, and such that do not.
fn ends(check: &mut Check) {
    let mut cut = Cut::new(check, 160);
    let (last, more) = ((48..96, false), |end| (48..end, true));
    for (one, other, number) in [
        // Two that end apart, by a byte or by more.
        (last.clone(), (48..95, false), APART),
        (last.clone(), (48..88, false), APART),
        (last.clone(), (96..104, false), APART),
        (last.clone(), (8..16, false), APART),
        // One that others follow, and that ends at or past the end.
        (last.clone(), more(96), APART),
        (last.clone(), more(104), APART),
        (last.clone(), (88..96, true), APART),
        (last.clone(), (96..104, true), APART),
        (last.clone(), (104..112, true), APART),
        ((48..89, false), (80..88, true), WAITS),
        ((48..89, false), (88..96, true), APART),
        // The same end, or one before it.
        (last.clone(), last.clone(), WAITS),
        (last.clone(), (88..96, false), WAITS),
        (last.clone(), (8..48, true), WAITS),
        (last.clone(), (80..88, true), WAITS),
        ((88..96, false), (8..88, true), WAITS),
    ] {
        for [first, second] in [[&one, &other], [&other, &one]] {
            cut.gives(check, WAITS, first.0.clone(), first.1);
            // A part of what has come is ignored, and what stands apart from it is taken; all else overlaps.
            let part = first.0.start <= second.0.start && second.0.end <= first.0.end;
            let apart = first.0.end <= second.0.start || second.0.end <= first.0.start;
            let number = if part || apart { number } else { APART };
            cut.gives(check, number, second.0.clone(), second.1);
            cut.nodes = node(check, &settings());
        }
    }
}

/// Keys that differ in one thing do not join; neither interface nor what else a header has belongs to it.
fn keys(check: &mut Check) {
    let mut two = settings();
    two.locator_count = 3;
    two.locators[1] = Locator { address: LOCATOR, interface: 8 };
    two.locators[2] = Locator { address: LOCATOR + 1, interface: 7 };
    for key in [
        Key { source: NEIGHBOUR + 1, ..KEY },
        Key { source: NEIGHBOUR ^ 1 << 31, ..KEY },
        Key { destination: LOCATOR + 1, ..KEY },
        Key { identification: 4, ..KEY },
        Key { identification: 5 | 1 << 15, ..KEY },
    ] {
        let mut cut = Cut::with(check, &two, 100);
        cut.piece(check, WAITS, 0..48);
        cut.key = key;
        cut.piece(check, WAITS, 48..100);
        cut.key = KEY;
        cut.piece(check, 0, 48..100);
        same("places in use", [false, true].as_slice(), &cut.used()[..2], &|| "the other key waits".into());
    }
    let mut cut = Cut::with(check, &two, 100);
    cut.piece(check, WAITS, 0..48);
    cut.key.protocol = 17;
    cut.piece(check, 4, 48..100);
    (cut.key, cut.interface) = (KEY, 8);
    cut.piece(check, 0, 48..100);
    // A whole datagram of the key neither ends nor helps what is collected.
    cut.piece(check, WAITS, 0..48);
    cut.piece(check, 0, 0..100);
    cut.piece(check, 0, 48..100);
}

/// A new key takes the lowest place that is free: after one was joined, dropped or refused, or has become too old.
fn places(check: &mut Check) {
    let mut cut = Cut::new(check, 100);
    let first = |cut: &mut Cut, check: &mut Check, identification: u16, number: u8| {
        cut.key.identification = identification;
        cut.piece(check, number, 0..48);
    };
    for identification in 0..8 {
        first(&mut cut, check, identification, WAITS);
    }
    for (freed, joined) in [(3, true), (5, false), (0, true), (7, false)] {
        cut.key.identification = freed;
        if joined {
            cut.piece(check, 0, 48..100);
        } else {
            cut.piece(check, APART, 40..100);
        }
        let mut expected = [true; 8];
        expected[usize::from(freed)] = false;
        same("places in use", &expected, &cut.used(), &|| format!("place {freed} is free"));
        first(&mut cut, check, freed, WAITS);
    }
    // Two are free: the lower one is taken, then the other.
    for joined in [6, 2] {
        cut.key.identification = joined;
        cut.piece(check, 0, 48..100);
    }
    for (identification, place) in [(20, 2), (21, 6)] {
        first(&mut cut, check, identification, WAITS);
        let given = cut.nodes.library.first.pieces.places[place].key.identification;
        same("the key there", &identification, &given, &|| format!("place {place}"));
    }
    first(&mut cut, check, 22, FULL);
}

/// Eight keys wait, and a ninth is refused until the first of them has waited 30 s; their own pieces are taken.
fn full(check: &mut Check) {
    let mut cut = Cut::new(check, 104);
    for identification in 0..8 {
        (cut.key.identification, cut.time) = (identification, u32::from(identification) / 3);
        cut.piece(check, WAITS, 0..48);
    }
    for (time, number) in [(2, FULL), (29, FULL)] {
        (cut.key.identification, cut.time) = (8, time);
        cut.piece(check, number, 0..48);
        cut.gives(check, UNFIT, 0..47, true);
    }
    cut.key.identification = 1;
    cut.piece(check, WAITS, 0..48);
    cut.piece(check, WAITS, 48..56);
    (cut.key.identification, cut.time) = (8, 30);
    cut.piece(check, WAITS, 0..48);
    let given = cut.nodes.library.first.pieces.places.map(|place| place.key.identification);
    same("keys", &[8, 1, 2, 3, 4, 5, 6, 7], &given, &|| "the ninth has the first one's place".into());
    // The pieces of keys 0 to 2 are gone; the others still wait.
    for (identification, number) in [(8, 0), (0, WAITS), (1, WAITS), (2, WAITS), (3, 0), (7, 0)] {
        cut.key.identification = identification;
        cut.piece(check, number, 48..104);
    }
}

/// A datagram is live under 30 s from its first piece, at any time; a repeat does not renew it, and any call's time counts.
fn ages(check: &mut Check) {
    let last = u32::MAX;
    for start in [0, 1, 1000, 1 << 31, last - 31, last - 30, last - 29, last - 1, last] {
        for age in [0, 1, 28, 29, 30, 31, 60, last] {
            for repeated in [false, true] {
                let mut cut = Cut::new(check, 100);
                cut.time = start;
                cut.piece(check, WAITS, 48..100);
                if repeated {
                    cut.time = start.saturating_add(age.min(29));
                    cut.piece(check, WAITS, 48..100);
                }
                cut.time = start.saturating_add(age);
                let live = cut.time - start < 30;
                cut.piece(check, if live { 0 } else { WAITS }, 0..48);
            }
        }
    }
    let late = |cut: &mut Cut, check: &mut Check, time: u32| {
        let packet = packets::packet(&mut check.random, 60, 17, &link_local(LOCATOR));
        cut.nodes.send(check, &packet, link_local(NEIGHBOUR), 0, time, 80);
    };
    for (time, number) in [(29, 0), (30, WAITS)] {
        let mut cut = Cut::new(check, 100);
        cut.piece(check, WAITS, 0..48);
        late(&mut cut, check, time);
        // The call's own time is earlier.
        cut.piece(check, number, 48..100);
        // The first time is the latest then, not the call's.
        let mut cut = Cut::new(check, 100);
        late(&mut cut, check, 100);
        cut.piece(check, WAITS, 0..48);
        cut.time = 100 + time;
        cut.piece(check, number, 48..100);
    }
}

/// 8, 9 and 10 are judged on what is joined, by the routers now in force; the place is free afterwards.
fn judged_when_joined(check: &mut Check) {
    for (at, value, number) in [(0, 0x40, 8), (5, 61, 8), (8, 0xff, 9), (23, 9, 10), (16, 1, 10)] {
        for [first, last] in [[0..24, 24..100], [24..100, 0..24]] {
            let mut cut = Cut::new(check, 100);
            cut.payload[at] = value;
            cut.piece(check, WAITS, first);
            cut.piece(check, number, last);
            cut.nothing_waits();
        }
    }
    // Under 40 bytes.
    let mut cut = Cut::new(check, 40);
    cut.gives(check, WAITS, 0..32, true);
    cut.gives(check, 8, 32..39, false);
    cut.nothing_waits();
    // What stands behind the packet is not delivered.
    let mut cut = Cut::new(check, 100);
    cut.gives(check, WAITS, 0..96, true);
    cut.gives(check, 0, 96..107, false);
    routers_in_force(check);
}

/// Of a source that no address embeds: a router when the first piece comes, or when the last one does.
fn routers_in_force(check: &mut Check) {
    let other = NEIGHBOUR + 7;
    for (first, last, number) in [(&[][..], &[other][..], 0), (&[other], &[], 10), (&[other], &[other], 0)] {
        let mut cut = Cut::new(check, 100);
        cut.key.source = other;
        cut.nodes.replace_routers(check, first, 0);
        cut.piece(check, WAITS, 0..48);
        cut.nodes.replace_routers(check, last, 0);
        cut.piece(check, number, 48..100);
        cut.nothing_waits();
    }
}

/// The memory is asked for before all else, and raises the time; what stands behind 16,384 bytes does not matter.
fn memory(check: &mut Check) {
    let mut cut = Cut::new(check, 100);
    cut.piece(check, WAITS, 0..48);
    let last = Part { key: KEY, offset: 6, more: false, payload: cut.payload[48..].to_vec() }.bytes(&mut check.random);
    let whole = Part::whole(KEY, &cut.payload).bytes(&mut check.random);
    let mut time = 0;
    for room in [0, 1, 2048, 16320, MEMORY - 1] {
        for datagram in [&last[..], &whole, &[], &whole[..60], &last[..19]] {
            time += 1;
            let given = cut.nodes.receive_in(check, datagram, 7, time, room);
            let latest = cut.nodes.library.latest;
            same("number and latest time", &(Err(15), time), &(given, latest), &|| format!("memory of {room}"));
        }
    }
    for room in [MEMORY, MEMORY + 1, MEMORY + 9000] {
        cut.nodes.memory_mut().resize(room, 0x77);
        let mut nodes = cut.nodes.clone();
        let joined = nodes.receive(check, &last, 7, 0);
        same("joined", &Ok(cut.payload.clone()), &joined, &|| format!("memory of {room}"));
    }
}

/// Each of many pieces behind each of them, and all that is missing behind these: about the edges of units and of words of 64 units.
fn pairs(check: &mut Check) {
    let small = (0..5).flat_map(|offset| (1..=20).map(move |length| (offset, length)));
    tried_in_pairs(check, &small.collect::<Vec<_>>());
    let edges = [0, 1, 62, 63, 64, 65, 127, 128, 191, 192, 255];
    let counts = [1, 2, 63, 64, 65, 129, 192, 255];
    let words = edges.into_iter().flat_map(|offset| counts.map(|count| (offset, 8 * count)));
    tried_in_pairs(check, &words.filter(|(offset, length)| 8 * offset + length <= ROOM).collect::<Vec<_>>());
}

fn tried_in_pairs(check: &mut Check, pieces: &[(usize, usize)]) {
    let mut cut = Cut::new(check, ROOM);
    for &(offset, length) in pieces {
        for more in [false, true] {
            for &(other_offset, other_length) in pieces {
                for other_more in [false, true] {
                    // Each pair has a key of its own, and 30 s are over when its place is taken again.
                    cut.key.identification = cut.key.identification.wrapping_add(1);
                    cut.time += 5;
                    cut.tried(check, 8 * offset..8 * offset + length, more);
                    cut.tried(check, 8 * other_offset..8 * other_offset + other_length, other_more);
                    if offset == 0 && check.random.once_in(3) {
                        cut.tried(check, length..ROOM, false);
                    }
                }
            }
        }
    }
}

impl Cut {
    /// The bytes of the payload, whatever they give.
    fn tried(&mut self, check: &mut Check, bytes: Range<usize>, more: bool) {
        let part = Part { key: self.key, offset: bytes.start / 8, more, payload: self.payload[bytes].to_vec() };
        let piece = part.bytes(&mut check.random);
        _ = self.nodes.receive(check, &piece, self.interface, self.time);
    }
}

/// Random cuttings of datagrams of each verdict.
fn cuttings(check: &mut Check) {
    let arrivals = [(KEY, 7), (KEY, 8), (Key { source: 0, ..KEY }, 7), (Key { protocol: 4, ..KEY }, 7)];
    for (at, value) in [(39, 0), (0, 0x40), (5, 200), (8, 0xff), (23, 9)] {
        for length in [48, 72, 600, 2048] {
            for (key, interface) in arrivals {
                let mut cut = Cut::new(check, length);
                cut.payload[at] = value;
                for _ in 0..20 {
                    joins(check, &cut.nodes, key, &cut.payload, interface);
                }
            }
        }
    }
}

/// Every byte of a piece changed while others of its datagram wait; and each of the other bytes of what it completes.
fn changed_pieces(check: &mut Check) {
    let mut cut = Cut::new(check, 72);
    cut.piece(check, WAITS, 0..24);
    cut.piece(check, WAITS, 48..72);
    for (words, padding) in [(0, 0), (1, 2)] {
        let mut piece =
            packets::datagram(&mut check.random, (NEIGHBOUR, LOCATOR), words, &cut.payload[24..48], padding);
        packets::put16(&mut piece, 4, KEY.identification);
        packets::put16(&mut piece, 6, 0x2000 | 3);
        packets::repair_outer(&mut piece);
        changed(&piece, piece.len(), |mut tried| {
            for _ in 0..2 {
                let mut nodes = cut.nodes.clone();
                _ = nodes.receive(check, &tried, 7, 0);
                packets::repair_outer(&mut tried);
            }
        });
        for total in 0..=piece.len() + 2 {
            let mut tried = piece.clone();
            packets::put16(&mut tried, 2, total as u16);
            packets::repair_outer(&mut tried);
            _ = cut.nodes.clone().receive(check, &tried, 7, 0);
        }
        for interface in 0..=255 {
            _ = cut.nodes.clone().receive(check, &piece, interface, 0);
        }
    }
}
