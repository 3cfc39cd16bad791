//! The joining of datagrams that came in pieces (docs/RULES.md, R23) in plain Rust: up to eight are collected at once, in memory that the
//! caller lends.

use super::rules::{OuterRead, Refusal};
use std::ops::Range;

/// Datagrams that are collected at once.
pub const PLACES: usize = 8;
/// The most bytes of payload that one has.
pub const ROOM: usize = 2048;
/// The memory that the caller lends: the payload of place k stands from `k * ROOM` on.
pub const MEMORY: usize = PLACES * ROOM;
/// Seconds from its first piece on in which a datagram is live.
const LIFETIME: u32 = 30;
/// Offsets count units of so many bytes.
const UNIT: usize = 8;
/// Words of a bit for each unit.
const WORDS: usize = ROOM / UNIT / 64;

/// What the pieces of one datagram have in common.
#[derive(Clone, Copy, Debug, Default, PartialEq, Eq)]
pub struct Key {
    pub source: u32,
    pub destination: u32,
    pub identification: u16,
    pub protocol: u8,
}

/// A piece of a datagram.
pub struct Piece<'d> {
    key: Key,
    /// In units.
    offset: usize,
    /// More-fragments is set.
    more: bool,
    payload: &'d [u8],
}

impl<'d> Piece<'d> {
    pub fn new(outer: &OuterRead, payload: &'d [u8]) -> Piece<'d> {
        let OuterRead { source, destination, identification, protocol, fragment, .. } = *outer;
        Piece {
            key: Key { source, destination, identification, protocol },
            offset: usize::from(fragment & 0x1fff),
            more: fragment & 0x2000 != 0,
            payload,
        }
    }

    /// Where it ends in the datagram's payload.
    fn end(&self) -> usize {
        UNIT * self.offset + self.payload.len()
    }

    fn units(&self) -> Range<usize> {
        self.offset..self.end().div_ceil(UNIT)
    }

    fn is_unfit(&self) -> bool {
        self.payload.is_empty() || self.end() > ROOM || self.more && self.payload.len() % UNIT != 0
    }
}

/// A datagram of which some pieces have come.
#[derive(Clone, Copy, Debug, Default, PartialEq, Eq)]
pub struct Place {
    pub used: bool,
    pub key: Key,
    /// The latest time at its first piece.
    pub first: u32,
    /// The length of its payload, 0 while that is not known.
    pub end: u16,
    /// Where the last of its pieces ends that have more-fragments set.
    pub reach: u16,
    /// The units that have come, a bit for each.
    pub held: [u64; WORDS],
}

impl Place {
    pub fn is_live(&self, now: u32) -> bool {
        self.used && now - self.first < LIFETIME
    }

    /// Whether the piece and those that have come disagree about the end.
    fn ends_apart(&self, piece: &Piece) -> bool {
        let (end, known, reach) = (piece.end(), usize::from(self.end), usize::from(self.reach));
        if piece.more {
            known != 0 && known <= end
        } else {
            known != 0 && known != end || end <= reach
        }
    }

    fn holds_some(&self, units: Range<usize>) -> bool {
        bits(units).any(|(word, bits)| self.held[word] & bits != 0)
    }

    fn holds_all(&self, units: Range<usize>) -> bool {
        bits(units).all(|(word, bits)| self.held[word] & bits == bits)
    }

    fn add(&mut self, piece: &Piece) {
        bits(piece.units()).for_each(|(word, bits)| self.held[word] |= bits);
        let end = piece.end() as u16;
        if piece.more {
            self.reach = self.reach.max(end);
        } else {
            self.end = end;
        }
    }

    fn is_complete(&self) -> bool {
        self.end != 0 && self.holds_all(0..usize::from(self.end).div_ceil(UNIT))
    }
}

/// The words that units stand in, and their bits of each.
fn bits(units: Range<usize>) -> impl Iterator<Item = (usize, u64)> {
    (units.start / 64..units.end.div_ceil(64)).map(move |word| {
        let first = units.start.saturating_sub(64 * word);
        let behind = (units.end - 64 * word).min(64);
        (word, u64::MAX << first & u64::MAX >> (64 - behind))
    })
}

/// The datagrams that are collected.
#[derive(Clone, Copy, Debug, Default, PartialEq, Eq)]
pub struct Collection {
    pub places: [Place; PLACES],
}

impl Collection {
    /// Where in the memory the payload of the datagram stands that the piece completes; 30, 29, 28, 27.
    pub fn take(&mut self, piece: &Piece, now: u32, memory: &mut [u8]) -> Result<Range<usize>, Refusal> {
        if piece.is_unfit() {
            return Err(Refusal::PieceUnfit);
        }
        let number = self.place(&piece.key, now)?;
        let place = &mut self.places[number];
        let start = ROOM * number;
        let bytes = &mut memory[start + UNIT * piece.offset..][..piece.payload.len()];
        if place.ends_apart(piece) {
            place.used = false;
            return Err(Refusal::PiecesDisagree);
        }
        if place.holds_some(piece.units()) {
            if place.holds_all(piece.units()) && bytes == piece.payload {
                return Err(Refusal::PieceWaits);
            }
            place.used = false;
            return Err(Refusal::PiecesDisagree);
        }
        bytes.copy_from_slice(piece.payload);
        place.add(piece);
        if !place.is_complete() {
            return Err(Refusal::PieceWaits);
        }
        place.used = false;
        Ok(start..start + usize::from(place.end))
    }

    /// The place of the live datagram of the key, or the lowest that is free, for a new one; 28.
    fn place(&mut self, key: &Key, now: u32) -> Result<usize, Refusal> {
        let known = self.places.iter().position(|place| place.is_live(now) && place.key == *key);
        if let Some(number) = known {
            return Ok(number);
        }
        let free = self.places.iter().position(|place| !place.is_live(now)).ok_or(Refusal::NoPlace)?;
        self.places[free] = Place { used: true, key: *key, first: now, ..Place::default() };
        Ok(free)
    }
}
