//! The outer header (R5, R7.10): read, and written.

use super::address::word;
use super::bytes::{put_words, upper, word32, word64, word_of};
use super::piece::Piece;
use super::sum::{self, complement};
use crate::plain::{rules, Refusal};

pub const HEADER: usize = 20;
/// The longest datagram.
const LONGEST: usize = 65535;
pub const TUNNELLED: u8 = 41;
/// Version 4 and the fewest words, as a header without options begins.
const FIRST: u8 = 0x45;
const DONT_FRAGMENT: u16 = 0x4000u16.swap_bytes();
const MORE_AND_OFFSET: u16 = 0x3fffu16.swap_bytes();

/// An outer header as read.
pub struct Outer<'d> {
    first: u64,
    second: u64,
    /// The last word.
    pub destination: u32,
    /// What stands between the header and the total length.
    pub payload: &'d [u8],
}

impl<'d> Outer<'d> {
    /// One of that length; 2, 3, 4.
    #[inline(always)]
    pub fn read(length: usize, datagram: &'d [u8]) -> Result<Outer<'d>, Refusal> {
        let bytes: &[u8; HEADER] = datagram.first_chunk().ok_or(Refusal::OuterMalformed)?;
        let (first, second, destination) = (word64(bytes, 0), word64(bytes, 8), word32(bytes, 16));
        let total = usize::from(((first >> 16) as u16).swap_bytes());
        let payload = datagram.get(length..total).ok_or(Refusal::OuterMalformed)?;
        let mut sum = sum::of_words([first, second, destination.into()]);
        if length > HEADER {
            sum = sum::added((sum >> 32) + (sum & 0xffff_ffff), &datagram[HEADER..length]);
        }
        if !sum::is_right(sum) {
            return Err(Refusal::OuterChecksum);
        }
        if (second >> 8) as u8 != TUNNELLED {
            return Err(Refusal::Protocol);
        }
        Ok(Outer { first, second, destination, payload })
    }

    #[inline(always)]
    pub fn source(&self) -> u32 {
        upper(self.second)
    }

    #[inline(always)]
    pub fn is_piece(&self) -> bool {
        self.fragment() != 0
    }

    /// More-fragments and the offset.
    #[inline(always)]
    fn fragment(&self) -> u16 {
        (self.first >> 48) as u16 & MORE_AND_OFFSET
    }

    /// What a piece is; 30.
    #[inline(always)]
    pub fn piece(&self) -> Result<Piece<'d>, Refusal> {
        let ends = word_of(self.source(), self.destination);
        Piece::new(ends, (self.first >> 32) as u16, self.fragment().swap_bytes(), self.payload)
    }
}

/// Whether the datagram begins as one that is whole and has no options.
#[inline(always)]
pub fn is_simple(datagram: &[u8]) -> bool {
    const LOOKED_AT: u64 = (MORE_AND_OFFSET as u64) << 48 | 0xff;
    datagram.first_chunk().is_some_and(|bytes: &[u8; HEADER]| word64(bytes, 0) & LOOKED_AT == FIRST.into())
}

/// The length of a header that begins so: version 4, and at least 5 words.
#[inline(always)]
pub fn header_length(first: u8) -> Option<usize> {
    match first {
        FIRST => Some(HEADER),
        0x46..=0x4f => Some(usize::from(first & 0xf) * 4),
        _ => None,
    }
}

/// What is the same in all headers that are written from one address.
#[derive(Clone, Copy, Debug, PartialEq, Eq)]
pub struct Start {
    /// TTL, protocol, no checksum yet, the address.
    second: u64,
    /// The sum of these and of the first two bytes.
    sum: u64,
}

impl Start {
    #[inline(always)]
    pub fn new(ttl: u8, protocol: u8, source: u32) -> Start {
        let kind = u32::from(ttl) | u32::from(protocol) << 8;
        Start { second: word_of(kind, source), sum: u64::from(kind) + u64::from(source) + u64::from(FIRST) }
    }

    pub fn source(&self) -> u32 {
        upper(self.second)
    }

    /// Writes the packet behind its header and gives the length, which is at most 65,535; 15.
    #[inline(always)]
    pub fn wrap(
        &self,
        identification: u16,
        dont_fragment: bool,
        destination: u32,
        packet: &[u8],
        out: &mut [u8],
    ) -> Result<usize, Refusal> {
        let length = HEADER + packet.len();
        let (header, rest) = out.get_mut(..length).ok_or(Refusal::Room)?.split_at_mut(HEADER);
        let total = u64::from((length as u16).swap_bytes());
        let identification = u64::from(identification.swap_bytes());
        let flags = if dont_fragment { u64::from(DONT_FRAGMENT) } else { 0 };
        let sum = self.sum + total + identification + flags + u64::from(destination);
        let first = u64::from(FIRST) | total << 16 | identification << 32 | flags << 48;
        put_words(header, [first, self.second | u64::from(complement(sum)) << 16]);
        header[16..].copy_from_slice(&destination.to_le_bytes());
        rest.copy_from_slice(packet);
        Ok(length)
    }
}

/// Writes the packet behind a header of its own and gives the length; 23, 15.
#[inline(always)]
pub fn wrap(outer: &rules::Outer, packet: &[u8], out: &mut [u8]) -> Result<usize, Refusal> {
    if packet.len() > LONGEST - HEADER {
        return Err(Refusal::TooLong);
    }
    let start = Start::new(outer.ttl, outer.protocol, word(outer.source));
    start.wrap(outer.identification, outer.dont_fragment, word(outer.destination), packet, out)
}
