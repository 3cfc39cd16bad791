//! The ICMPv6 messages that are written by themselves: Packet Too Big (R8.1) and the solicitation (R14). Sums of what is constant are
//! constants.

use super::address::{word, Six, ISATAP, LINK_LOCAL};
use super::bytes::put_words;
use super::inner::{FULL_HOP_LIMIT, HEADER, ICMPV6};
use super::sum::{added, complement, of_words};
use crate::plain::Refusal;

const TOO_BIG: u8 = 2;
const SOLICITATION: u8 = 133;
const TOO_BIG_HOP_LIMIT: u8 = 64;
/// The most of a packet that a Too Big quotes.
pub const QUOTED: usize = 1232;
pub const TOO_BIG_LENGTH: usize = HEADER + 8 + QUOTED;
pub const SOLICITATION_LENGTH: usize = HEADER + 8;

/// The first word of an IPv6 header before an ICMPv6 message of that length.
#[inline(always)]
pub const fn first_word(message: usize, hop_limit: u8) -> u64 {
    let length = (message as u16).to_be_bytes();
    u64::from_le_bytes([0x60, 0, 0, 0, length[0], length[1], ICMPV6, hop_limit])
}

/// The sum of what the pseudo header has beside the addresses.
#[inline(always)]
pub const fn pseudo(message: usize) -> u64 {
    word(message as u32 + ICMPV6 as u32) as u64
}

/// The address that messages come from, with its sum.
#[derive(Clone, Copy, Debug, PartialEq, Eq)]
pub struct Reporter {
    address: Six,
    sum: u64,
}

impl Reporter {
    pub fn new(address: Six) -> Reporter {
        let sum = of_words([address.prefix, address.identifier]);
        let constant = pseudo(TOO_BIG_LENGTH - HEADER) + u64::from(TOO_BIG);
        Reporter { address, sum: (sum >> 32) + (sum & 0xffff_ffff) + constant }
    }

    /// Writes the Packet Too Big that answers a packet, of which the quote is the front, and gives its length; 15.
    #[inline(always)]
    pub fn write_too_big(&self, size: u16, quote: &[u8; QUOTED], out: &mut [u8]) -> Result<usize, Refusal> {
        let out: &mut [u8; TOO_BIG_LENGTH] = out.first_chunk_mut().ok_or(Refusal::Room)?;
        let Six { prefix, identifier } = self.address;
        let source = Six::at(quote, 8);
        let size = u64::from(u32::from(size).swap_bytes());
        let halves = [source.prefix, source.identifier].map(|word| (word >> 32) + (word & 0xffff_ffff));
        let sum = added(self.sum + size + halves[0] + halves[1], quote);
        let message = u64::from(TOO_BIG) | u64::from(complement(sum)) << 16 | size << 32;
        let first = first_word(TOO_BIG_LENGTH - HEADER, TOO_BIG_HOP_LIMIT);
        put_words(out, [first, prefix, identifier, source.prefix, source.identifier, message]);
        out[HEADER + 8..].copy_from_slice(quote);
        Ok(TOO_BIG_LENGTH)
    }
}

/// The sum of a solicitation but for the two IPv4 addresses.
const SOLICITATION_SUM: u64 = {
    let link_local = LINK_LOCAL + ISATAP as u64;
    2 * link_local + pseudo(SOLICITATION_LENGTH - HEADER) + SOLICITATION as u64
};

/// Writes a router solicitation from our link-local address to the router's.
#[inline(always)]
pub fn write_solicitation(locator: u32, router: u32, out: &mut [u8; SOLICITATION_LENGTH]) {
    let sum = SOLICITATION_SUM + u64::from(locator) + u64::from(router);
    let (source, destination) = (Six::link_local(locator), Six::link_local(router));
    let first = first_word(SOLICITATION_LENGTH - HEADER, FULL_HOP_LIMIT);
    let message = u64::from(SOLICITATION) | u64::from(complement(sum)) << 16;
    put_words(out, [first, source.prefix, source.identifier, destination.prefix, destination.identifier, message]);
}
