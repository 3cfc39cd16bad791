//! The header of an IPv6 packet (R5.10), and the ICMPv6 messages that are read behind it (R15.3, R15.4, R22.4).

use super::address::Six;
use super::bytes::{word16, word64};
use super::sum;
use crate::plain::Refusal;

pub const HEADER: usize = 40;
/// Where the source stands.
pub const SOURCE: usize = 8;
pub const ICMPV6: u8 = 58;
/// Of the messages of neighbour discovery.
pub const FULL_HOP_LIMIT: u8 = 255;
/// Next header and hop limit of these messages, as a word.
const DISCOVERY: u16 = u16::from_le_bytes([ICMPV6, FULL_HOP_LIMIT]);
/// Options are multiples of so many bytes.
pub const UNIT: usize = 8;

/// The header of a packet, whose bytes are there.
pub struct Inner<'p> {
    pub header: &'p [u8; HEADER],
    /// Of the whole packet.
    pub length: usize,
}

impl<'p> Inner<'p> {
    /// The packet at the start of the bytes; 8.
    #[inline(always)]
    pub fn read(bytes: &'p [u8]) -> Result<Inner<'p>, Refusal> {
        let header: &[u8; HEADER] = bytes.first_chunk().ok_or(Refusal::InnerMalformed)?;
        let first = word64(header, 0);
        let length = HEADER + usize::from(((first >> 32) as u16).swap_bytes());
        if first & 0xf0 != 0x60 || length > bytes.len() {
            return Err(Refusal::InnerMalformed);
        }
        Ok(Inner { header, length })
    }

    #[inline(always)]
    pub fn source(&self) -> Six {
        Six::at(self.header, SOURCE)
    }

    pub fn next_header(&self) -> u8 {
        self.header[6]
    }

    /// Whether a message of neighbour discovery stands in the packet, by its header alone.
    #[inline(always)]
    pub fn is_discovery(&self) -> bool {
        word16(self.header, 6) == DISCOVERY
    }
}

/// Whether the ICMPv6 checksum of the packet, without extension headers, is right: the addresses stand just before the message.
#[inline(always)]
pub fn is_checksum_right(packet: &[u8]) -> bool {
    let pseudo = (packet.len() - HEADER) as u32 + u32::from(ICMPV6);
    sum::is_right(sum::added(u64::from(pseudo.swap_bytes()), &packet[SOURCE..]))
}

/// Hands over the first eight bytes of each option, as a word; false where one has length 0 or they do not end where the bytes do.
#[inline(always)]
pub fn each_option(mut options: &[u8], mut seen: impl FnMut(u64)) -> bool {
    while let Some(front) = options.first_chunk() {
        let front = u64::from_le_bytes(*front);
        let length = UNIT * usize::from((front >> 8) as u8);
        if length == 0 || length > options.len() {
            return false;
        }
        seen(front);
        options = &options[length..];
    }
    options.is_empty()
}
