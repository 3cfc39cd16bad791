//! Size reports (R9).

use super::address::{is_forbidden, word};
use super::bytes::{word16, word32};
use super::outer::{header_length, TUNNELLED};
use super::service::Service;
use super::sum::{added_here, is_right};
use super::Node;
use crate::plain::Refusal;

/// The fewest bytes: eight, and a quoted header without options.
const SHORTEST: usize = 28;
/// Where the quoted header starts.
const QUOTE: usize = 8;
/// Type 3, code 4.
const TOO_BIG: u16 = u16::from_le_bytes([3, 4]);
/// The smallest size that a link can have (RFC 791).
const LEAST: u16 = 68;
const PLATEAUS: [u16; 11] = [65535, 32000, 17914, 8166, 4352, 2002, 1492, 1006, 508, 296, LEAST];

impl Node {
    /// Takes an ICMPv4 message in, which belongs to the service whose locator it quotes, and gives the neighbour and its size; 16 to 19.
    #[inline(never)]
    pub fn report(&mut self, message: &[u8], time: u32) -> Result<(u32, u16), Refusal> {
        self.raise(time);
        let front = well_formed(message).ok_or(Refusal::NoReport)?;
        self.take(front)
    }

    /// Of a well-formed report with that front; 17 to 19.
    #[inline(never)]
    fn take(&mut self, front: &[u8; SHORTEST]) -> Result<(u32, u16), Refusal> {
        let now = self.latest;
        let (source, neighbour) = (word32(front, QUOTE + 12), word32(front, QUOTE + 16));
        let service = self.owner(source).ok_or(Refusal::ForeignQuote)?;
        if front[QUOTE + 9] != TUNNELLED || is_forbidden(neighbour) || service.locators.has(neighbour) {
            return Err(Refusal::ForeignQuote);
        }
        let size = candidate(front).ok_or(Refusal::UnusableSize)?;
        let known = self.paths.find(neighbour);
        if size >= self.paths.size(known, service.link_size, now) {
            return Err(Refusal::SizeNotBelow);
        }
        self.paths.accept(known, neighbour, size, now);
        Ok((word(neighbour), size))
    }

    /// The first service that has a locator of the address.
    #[inline(always)]
    fn owner(&self, address: u32) -> Option<&Service> {
        if self.first.locators.has(address) {
            return Some(&self.first);
        }
        self.second.as_ref().filter(|second| second.locators.has(address))
    }
}

/// The front of a well-formed size report.
#[inline(always)]
fn well_formed(message: &[u8]) -> Option<&[u8; SHORTEST]> {
    let front: &[u8; SHORTEST] = message.first_chunk()?;
    let right = word16(front, 0) == TOO_BIG
        && QUOTE + header_length(front[QUOTE])? <= message.len()
        && is_right(added_here(0, message));
    right.then_some(front)
}

/// The size that is reported, or else the largest plateau below the quoted total length.
#[inline(always)]
fn candidate(front: &[u8; SHORTEST]) -> Option<u16> {
    match word16(front, 6).swap_bytes() {
        0 => plateau_below(word16(front, QUOTE + 2).swap_bytes()),
        size => (size >= LEAST).then_some(size),
    }
}

fn plateau_below(length: u16) -> Option<u16> {
    PLATEAUS.into_iter().find(|&plateau| plateau < length)
}
