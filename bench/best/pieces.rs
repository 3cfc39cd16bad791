//! The joining of datagrams that came in pieces (R23).

use super::piece::{Piece, ROOM, UNIT, WORDS};
use crate::plain::Refusal;
use std::ops::Range;

/// Datagrams that are collected at once.
pub const PLACES: usize = 8;
/// The memory that the caller lends: the payload of place k stands from `k * ROOM` on.
pub const MEMORY: usize = PLACES * ROOM;
/// Seconds from its first piece on in which a datagram is live.
pub const LIFETIME: u64 = 30;

/// A datagram of which some pieces have come.
#[derive(Clone, Copy, Debug, Default, PartialEq, Eq)]
pub struct Place {
    /// It is live before this time; 0 where the place is free.
    pub until: u64,
    pub ends: u64,
    pub identification: u16,
    /// The length of its payload, 0 while that is not known.
    pub end: u16,
    /// Where the last of its pieces ends that have more-fragments set.
    pub reach: u16,
    /// How many units have come.
    units: u16,
    /// Which they are, a bit for each.
    pub held: [u64; WORDS],
}

impl Place {
    fn is_of(&self, piece: &Piece, now: u32) -> bool {
        self.until > now.into() && self.ends == piece.ends && self.identification == piece.identification
    }

    /// Whether the piece and those that have come disagree about the end.
    fn ends_apart(&self, piece: &Piece) -> bool {
        let (end, known) = (piece.end() as u16, self.end);
        if piece.more {
            known != 0 && known <= end
        } else {
            known != 0 && known != end || end <= self.reach
        }
    }

    /// Of the units of the piece, whether some have come and whether all have.
    fn held_of(&self, piece: &Piece) -> (bool, bool) {
        let (mut some, mut all) = (false, true);
        piece.each_word(|word, bits| {
            some |= self.held[word] & bits != 0;
            all &= self.held[word] & bits == bits;
        });
        (some, all)
    }

    /// Whether the datagram is complete with the piece: no two have units in common, and none ends behind the last.
    fn completes(&mut self, piece: &Piece) -> bool {
        piece.each_word(|word, bits| self.held[word] |= bits);
        self.units += piece.units() as u16;
        let end = piece.end() as u16;
        if piece.more {
            self.reach = self.reach.max(end);
        } else {
            self.end = end;
        }
        self.end != 0 && usize::from(self.units) == usize::from(self.end).div_ceil(UNIT)
    }
}

/// The datagrams that are collected.
#[derive(Clone, Copy, Debug, Default, PartialEq, Eq)]
pub struct Collection {
    pub places: [Place; PLACES],
}

impl Collection {
    /// Where in the memory the payload of the datagram stands that the piece completes; 29, 28, 27.
    #[inline(always)]
    pub fn take(&mut self, piece: &Piece, now: u32, memory: &mut [u8; MEMORY]) -> Result<Range<usize>, Refusal> {
        let (payload, number) = (piece.payload, self.place(piece, now)?);
        let place = &mut self.places[number];
        let start = ROOM * number;
        let bytes = &mut memory[start + UNIT * piece.offset..][..payload.len()];
        let (some, all) = place.held_of(piece);
        let apart = place.ends_apart(piece);
        if apart || some {
            if !apart && all && bytes == payload {
                return Err(Refusal::PieceWaits);
            }
            place.until = 0;
            return Err(Refusal::PiecesDisagree);
        }
        bytes.copy_from_slice(payload);
        if !place.completes(piece) {
            return Err(Refusal::PieceWaits);
        }
        place.until = 0;
        Ok(start..start + usize::from(place.end))
    }

    /// The place of the live datagram that the piece is of, or the lowest that is free, for a new one; 28.
    fn place(&mut self, piece: &Piece, now: u32) -> Result<usize, Refusal> {
        if let Some(number) = self.places.iter().position(|place| place.is_of(piece, now)) {
            return Ok(number);
        }
        let free = self.places.iter().position(|place| place.until <= now.into()).ok_or(Refusal::NoPlace)?;
        let Piece { ends, identification, .. } = *piece;
        self.places[free] = Place { until: u64::from(now) + LIFETIME, ends, identification, ..Place::default() };
        Ok(free)
    }
}
