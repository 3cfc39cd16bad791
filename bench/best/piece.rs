//! A piece of a datagram (R23.3, R23.4). Every one that comes here has protocol 41, so its key is told by the addresses and the identification.

use crate::plain::Refusal;

/// The most bytes of payload that a joined datagram has.
pub const ROOM: usize = 2048;
/// Offsets count units of so many bytes.
pub const UNIT: usize = 8;
/// Words of a bit for each unit.
pub const WORDS: usize = ROOM / UNIT / 64;
const MORE: u16 = 0x2000;
const OFFSET: u16 = 0x1fff;

pub struct Piece<'d> {
    /// Source and destination.
    pub ends: u64,
    pub identification: u16,
    /// In units.
    pub offset: usize,
    /// More-fragments is set.
    pub more: bool,
    pub payload: &'d [u8],
}

impl<'d> Piece<'d> {
    /// One with these fields; 30.
    #[inline(always)]
    pub fn new(ends: u64, identification: u16, fragment: u16, payload: &'d [u8]) -> Result<Piece<'d>, Refusal> {
        let (offset, more) = (usize::from(fragment & OFFSET), fragment & MORE != 0);
        let length = payload.len();
        if length == 0 || UNIT * offset + length > ROOM || more && length % UNIT != 0 {
            return Err(Refusal::PieceUnfit);
        }
        Ok(Piece { ends, identification, offset, more, payload })
    }

    /// Where it ends in the datagram's payload.
    pub fn end(&self) -> usize {
        UNIT * self.offset + self.payload.len()
    }

    /// How many units it fills.
    pub fn units(&self) -> usize {
        self.payload.len().div_ceil(UNIT)
    }

    /// The words that its units stand in, and their bits of each.
    #[inline(always)]
    pub fn each_word(&self, mut seen: impl FnMut(usize, u64)) {
        let (mut word, mut first, mut left) = (self.offset / 64, self.offset % 64, self.units());
        while left > 0 {
            let count = left.min(64 - first);
            seen(word % WORDS, u64::MAX >> (64 - count) << first);
            (word, first, left) = (word + 1, 0, left - count);
        }
    }
}
