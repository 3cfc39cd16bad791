//! Packets, datagrams and messages as bytes, valid ones and those with one thing wrong.

use crate::plain::pieces::Key;
use crate::plain::rules::{checksum, link_local, u16_at};
use crate::plain::Address;
use crate::random::Random;

/// IPv4 addresses on both sides of each edge of the forbidden ones.
pub const EDGES: [u32; 14] = [
    0,
    1,
    0x7eff_ffff,
    0x7f00_0000,
    0x7f00_0001,
    0x7fff_ffff,
    0x8000_0000,
    0xdfff_ffff,
    0xe000_0000,
    0xefff_ffff,
    0xf000_0000,
    0xffff_fffe,
    0xffff_ffff,
    0x0a00_0001,
];

/// The extension headers that are followed.
pub const EXTENSIONS: [u8; 4] = [0, 43, FRAGMENT, 60];
pub const FRAGMENT: u8 = 44;
/// Numbers of headers, to fill a packet with in turn: each alone, and all.
pub const TURNS: [[u8; 4]; 5] = [[0; 4], [43; 4], [FRAGMENT; 4], [60; 4], EXTENSIONS];
/// As many headers as a packet can have.
pub const MOST_EXTENSIONS: usize = 8191;

pub fn put16(bytes: &mut [u8], at: usize, value: u16) {
    put(bytes, at, &value.to_be_bytes());
}

pub fn put32(bytes: &mut [u8], at: usize, value: u32) {
    put(bytes, at, &value.to_be_bytes());
}

/// Writes the value as far as there are bytes.
pub fn put(bytes: &mut [u8], at: usize, value: &[u8]) {
    bytes.iter_mut().skip(at).zip(value).for_each(|(byte, &new)| *byte = new);
}

/// An address with this prefix, identifier and IPv4 address.
pub fn address(prefix: &[u8; 8], first: u8, embedded: u32) -> Address {
    let mut address = link_local(embedded);
    address[..8].copy_from_slice(prefix);
    address[8] = first;
    address
}

/// An IPv6 packet of `length` bytes, at least 40, with random payload.
pub fn packet(random: &mut Random, length: usize, next_header: u8, source: &Address) -> Vec<u8> {
    let mut packet = vec![0; length];
    random.fill(&mut packet);
    packet[0] = 0x60 | packet[0] & 0xf;
    put16(&mut packet, 4, (length - 40) as u16);
    packet[6] = next_header;
    put(&mut packet, 8, source);
    packet
}

/// An extension header of this number, with this second byte and these 16 bits at its byte 2: a fragment's offset and three bits more.
#[derive(Clone, Copy, Debug)]
pub struct Extension {
    pub number: u8,
    pub second: u8,
    pub field: u16,
}

impl Extension {
    /// The shortest of the number.
    pub const fn new(number: u8) -> Extension {
        Extension { number, second: 0, field: 0 }
    }

    pub fn length(&self) -> usize {
        if self.number == FRAGMENT {
            8
        } else {
            8 + 8 * usize::from(self.second)
        }
    }
}

/// Whether an extension header that is followed stands behind the packet's own.
pub fn is_extended(packet: &[u8]) -> bool {
    packet.len() >= 40 && EXTENSIONS.contains(&packet[6])
}

/// Where the headers end in a packet, or would.
pub fn chain_end(headers: &[Extension]) -> usize {
    40 + headers.iter().map(Extension::length).sum::<usize>()
}

/// Puts the headers one behind the other into the packet, and behind them an upper layer that starts with these bytes; all as far as there
/// are bytes.
pub fn put_chain(packet: &mut [u8], headers: &[Extension], upper: u8, first: &[u8]) {
    let (mut number_at, mut at) = (6, 40);
    for header in headers {
        put(packet, number_at, &[header.number]);
        put(packet, at + 1, &[header.second]);
        put16(packet, at + 2, header.field);
        (number_at, at) = (at, at + header.length());
    }
    put(packet, number_at, &[upper]);
    put(packet, at, first);
}

/// So many of the shortest headers, of the numbers in turn.
pub fn shortest(turns: [u8; 4], count: usize) -> Vec<Extension> {
    turns.into_iter().cycle().take(count).map(Extension::new).collect()
}

/// Adds long headers of the number, no fragment, up to the end, or to the last place before it where one can end.
pub fn lengthen(headers: &mut Vec<Extension>, number: u8, end: usize) {
    let mut units = end.saturating_sub(chain_end(headers)) / 8;
    while units > 0 {
        let taken = units.min(256);
        headers.push(Extension { second: (taken - 1) as u8, ..Extension::new(number) });
        units -= taken;
    }
}

/// Gives the packet up to 40 extension headers and an upper layer. Many a chain ends where the packet does, or nearly.
pub fn random_chain(random: &mut Random, packet: &mut [u8]) {
    let count = if random.once_in(4) { random.between(0, 40) } else { random.between(0, 4) };
    let longest = random.one_of(&[0, 0, 1, 3, 255]);
    let mut headers: Vec<_> = (0..count).map(|_| extension(random, longest)).collect();
    if random.once_in(3) {
        let number = random.one_of(&[0, 43, 60]);
        lengthen(&mut headers, number, packet.len() - random.one_of(&[0, 8]) + random.one_of(&[0, 0, 1, 7]));
        headers.extend(random.once_in(2).then(|| extension(random, 0)));
    }
    let any = random.next() as u8;
    let upper = random.one_of(&[58, 58, 58, 58, 58, 6, 17, 50, 51, 59, 0, 43, 44, 60, any]);
    let kind = random.one_of(&[0, 1, 2, 127, 128, 128, 129, 129, 135, 136, 137, 138, 255, any]);
    put_chain(packet, &headers, upper, &[kind]);
}

/// A header with a second byte of at most so much, a fragment with any; mostly of a first fragment.
fn extension(random: &mut Random, longest: usize) -> Extension {
    let (number, any) = (random.one_of(&EXTENSIONS), random.next() as u16);
    let offset = if random.once_in(24) { random.one_of(&[1, 0x20, 0x1000, 0x1fff, any >> 3]) } else { 0 };
    if number == FRAGMENT {
        Extension { number, second: (any >> 8) as u8, field: offset << 3 | any & 7 }
    } else {
        Extension { number, second: random.between(0, longest) as u8, field: any }
    }
}

/// A datagram of protocol 41 with `words` words of options and `padding` bytes behind it.
pub fn datagram(random: &mut Random, ends: (u32, u32), words: usize, inner: &[u8], padding: usize) -> Vec<u8> {
    let header = 20 + 4 * words;
    let total = header + inner.len();
    let mut datagram = vec![0; total + padding];
    random.fill(&mut datagram[..header]);
    random.fill(&mut datagram[total..]);
    datagram[0] = 0x40 | (header / 4) as u8;
    put16(&mut datagram, 2, total as u16);
    // Don't-fragment and the reserved flag may be set.
    put16(&mut datagram, 6, random.one_of(&[0, 0, 0x4000, 0x8000, 0xc000]));
    datagram[9] = 41;
    put32(&mut datagram, 12, ends.0);
    put32(&mut datagram, 16, ends.1);
    put(&mut datagram, header, inner);
    repair_outer(&mut datagram);
    datagram
}

/// A piece under the key with this payload, which stands from the offset on, in units of 8 bytes. What no rule names is random.
pub fn piece(random: &mut Random, key: &Key, offset: usize, more: bool, payload: &[u8]) -> Vec<u8> {
    let (words, padding) = (random.one_of(&[0, 0, 0, 1, 10]), random.one_of(&[0, 0, 0, 3]));
    let mut piece = datagram(random, (key.source, key.destination), words, payload, padding);
    put16(&mut piece, 4, key.identification);
    let flags = u16_at(&piece, 6);
    put16(&mut piece, 6, flags | u16::from(more) << 13 | offset as u16);
    piece[9] = key.protocol;
    repair_outer(&mut piece);
    piece
}

/// Whether more-fragments is set or the offset is not 0.
pub fn is_piece(datagram: &[u8]) -> bool {
    datagram.len() >= 8 && u16_at(datagram, 6) & 0x3fff != 0
}

/// Puts the outer checksum right, for the header length that the header names.
pub fn repair_outer(datagram: &mut [u8]) {
    let header = datagram.first().map_or(0, |first| usize::from(first & 0xf) * 4).min(datagram.len());
    repair(&mut datagram[..header], 10, 0);
}

/// An ICMPv4 size report that quotes a header with `words` words of options, and `rest` bytes behind it.
pub fn size_report(
    random: &mut Random,
    size: u16,
    quoted: u16,
    ends: (u32, u32),
    words: usize,
    rest: usize,
) -> Vec<u8> {
    let mut message = vec![0; 28 + 4 * words + rest];
    random.fill(&mut message);
    put(&mut message, 0, &[3, 4]);
    put16(&mut message, 6, size);
    message[8] = 0x45 + words as u8;
    put16(&mut message, 10, quoted);
    message[17] = 41;
    put32(&mut message, 20, ends.0);
    put32(&mut message, 24, ends.1);
    repair_report(&mut message);
    message
}

pub fn repair_report(message: &mut [u8]) {
    repair(message, 2, 0);
}

/// A router advertisement from this source with these options behind its first 16 bytes.
pub fn advertisement(random: &mut Random, source: &Address, lifetime: u16, options: &[u8]) -> Vec<u8> {
    let mut packet = router_message(random, source, 134, 16, options);
    put16(&mut packet, 46, lifetime);
    repair_icmpv6(&mut packet);
    packet
}

/// A router solicitation from this source with these options behind its first 8 bytes.
pub fn solicitation(random: &mut Random, source: &Address, options: &[u8]) -> Vec<u8> {
    router_message(random, source, 133, 8, options)
}

/// A message of that type with these options behind its first `front` bytes, of which those that no rule names are random.
fn router_message(random: &mut Random, source: &Address, kind: u8, front: usize, options: &[u8]) -> Vec<u8> {
    let mut packet = packet(random, 40 + front + options.len(), 58, source);
    packet[7] = 255;
    put(&mut packet, 40, &[kind, 0]);
    put(&mut packet, 40 + front, options);
    repair_icmpv6(&mut packet);
    packet
}

/// Puts the ICMPv6 checksum right, for the payload length that the header names.
pub fn repair_icmpv6(packet: &mut [u8]) {
    if packet.len() < 40 {
        return;
    }
    let length = usize::from(u16_at(packet, 4)).min(packet.len() - 40);
    repair(&mut packet[8..40 + length], 34, length as u32 + 58);
}

/// Writes the checksum of the bytes at `at`; sometimes in the other form of zero.
fn repair(bytes: &mut [u8], at: usize, start: u32) {
    if bytes.len() < at + 2 {
        return;
    }
    put16(bytes, at, 0);
    let sum = checksum(start, bytes);
    put16(bytes, at, if sum == 0xffff && bytes[0] & 1 == 0 { 0xffff } else { !sum });
}

/// A message's option of `units` times 8 bytes, with a lifetime where prefix and route options have theirs.
pub fn option(random: &mut Random, kind: u8, units: u8, lifetime: u32) -> Vec<u8> {
    let mut option = vec![0; 8 * usize::from(units).max(1)];
    random.fill(&mut option);
    put(&mut option, 0, &[kind, units]);
    put32(&mut option, 4, lifetime);
    option
}

/// Changes one byte, or cuts the bytes or makes them longer.
pub fn damage(random: &mut Random, bytes: &mut Vec<u8>) {
    match random.below(8) {
        0 => bytes.truncate(random.below(bytes.len() + 1)),
        1 => bytes.truncate(bytes.len().saturating_sub(1)),
        2 => bytes.push(random.next() as u8),
        3 if !bytes.is_empty() => {
            let at = random.below(bytes.len());
            bytes[at] = random.next() as u8;
        }
        _ if !bytes.is_empty() => {
            // The headers' bytes are the telling ones.
            let at = random.below(bytes.len().min(80));
            bytes[at] ^= 1 << random.below(8);
        }
        _ => (),
    }
}
