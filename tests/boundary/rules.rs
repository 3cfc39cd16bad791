//! The rules without state on their own: edges of lengths and rooms, and random values.

use crate::check::{Check, LONGEST};
use crate::packets::{self, EDGES};
use crate::plain::rules::Outer;
use crate::stateless;

/// Each length at which a sum, a header or a room has an edge.
pub fn edges(check: &mut Check) {
    let mut bytes = vec![0; LONGEST];
    let starts = [0, 1, 0xffff, 0x1_0000, 0xffff_0000, 0xffff_fffe, 0xffff_ffff];
    let blocks = [511, 512, 513, 767, 768, 769, 1023, 1024, 1025];
    let long = [1279, 1280, 1480, 1499, 1500, 8191, 8192, 8193, 65514];
    let chunks = [65534, 65535, 65536, 65537, 65538, 131_070, 131_071, 131_072, 131_073, LONGEST];
    for fill in [Some(0), Some(0xff), None] {
        match fill {
            Some(byte) => bytes.fill(byte),
            None => check.random.fill(&mut bytes),
        }
        for length in (0..300).chain(blocks).chain(long).chain(chunks) {
            for start in starts {
                stateless::checksum(check, start, &bytes[..length]);
            }
            stateless::checksum_right(check, &bytes[..length]);
        }
    }
    let lengths = [0, 1, 2, 19, 39, 40, 41, 47, 48, 1231, 1232, 1233, 1234];
    for length in (0..70).chain(1279..=1301).chain(lengths).chain(long).chain([65515, 65516]).chain(chunks) {
        let written = length + 20;
        for room in [0, 19, 20, written - 1, written, written + 1, written + 64] {
            let (outer, dont_fragment) = (outer(check), dont_fragment(check));
            stateless::wrap(check, &outer, dont_fragment, &bytes[..length], room.min(LONGEST));
        }
        let written = length.min(1232) + 48;
        for room in [0, 40, 47, 48, written - 1, written, written + 1, 1279, 1280, 1300] {
            let reporting = check.random.bytes();
            let size = check.random.one_of(&[0, 68, 1280, 1480, 65535]);
            stateless::too_big(check, reporting, size, &bytes[..length], room);
        }
    }
    for room in (0..60).chain([1280]) {
        stateless::solicitation(check, 0x0a00_0001, 0x0a02_0001, room);
    }
    for dont_fragment in 0..=255 {
        let outer = outer(check);
        stateless::wrap(check, &outer, dont_fragment, &bytes[..60], 80);
    }
}

/// Some random calls of each rule.
pub fn random(check: &mut Check) {
    let address = address(check);
    stateless::forbidden(check, address);
    stateless::link_local(check, address);
    let mut prefixes = [[0; 8]; 8];
    prefixes.iter_mut().for_each(|prefix| *prefix = check.random.bytes());
    let count = check.random.one_of(&[0, 1, 4, 7, 8, 8, 9, usize::MAX]);
    let prefix = match check.random.below(4) {
        0 => [0xfe, 0x80, 0, 0, 0, 0, 0, 0],
        _ => check.random.one_of(&prefixes),
    };
    let mut full = packets::address(&prefix, check.random.one_of(&[0, 2]), address);
    if check.random.once_in(3) {
        full[check.random.below(16)] ^= 1 << check.random.below(8);
    }
    stateless::isatap(check, &prefixes, count, full);
    if check.random.once_in(2) {
        full[..12].fill(0);
    }
    stateless::bad_source(check, full);
    let long = check.random.once_in(2000);
    let length = if long { check.random.between(65500, 65530) } else { check.random.between(0, 200) };
    let mut bytes = vec![0; length];
    check.random.fill(&mut bytes);
    let start = check.random.next() as u32;
    stateless::checksum(check, start, &bytes);
    if length >= 40 {
        packets::repair_report(&mut bytes);
    }
    stateless::checksum_right(check, &bytes);
    let (outer, dont_fragment) = (outer(check), dont_fragment(check));
    let room = length + check.random.between(15, 24);
    stateless::wrap(check, &outer, dont_fragment, &bytes, room);
    let reporting = check.random.bytes();
    stateless::too_big(check, reporting, start as u16, &bytes, room + 28);
    let router = self::address(check);
    stateless::solicitation(check, address, router, room);
}

fn address(check: &mut Check) -> u32 {
    if check.random.once_in(2) {
        check.random.one_of(&EDGES)
    } else {
        check.random.next() as u32
    }
}

fn outer(check: &mut Check) -> Outer {
    Outer {
        identification: check.random.one_of(&[0, 1, 0xfffe, 0xffff, 0x1234]),
        dont_fragment: false,
        ttl: check.random.next() as u8,
        protocol: check.random.one_of(&[41, 41, 4, 0, 255]),
        source: address(check),
        destination: address(check),
    }
}

/// The byte that says it in C: often 0 or 1, or any other.
fn dont_fragment(check: &mut Check) -> u8 {
    let any = check.random.next() as u8;
    check.random.one_of(&[0, 0, 1, any])
}
