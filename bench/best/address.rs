//! Addresses as words in the machine's order: an IPv4 address of 32 bits, an IPv6 address of two times 64.

use super::bytes::{upper, word64, word_of};
use crate::plain::Address;

/// The IPv4 address as a word, and back.
pub const fn word(address: u32) -> u32 {
    address.swap_bytes()
}

/// fe80::/64.
pub const LINK_LOCAL: u64 = u64::from_le_bytes([0xfe, 0x80, 0, 0, 0, 0, 0, 0]);
/// What stands before the IPv4 address in an identifier that we form.
pub const ISATAP: u32 = u32::from_le_bytes([0x00, 0x00, 0x5e, 0xfe]);
/// The bit that its first byte may have beside.
const UNIVERSAL: u64 = 0x02;
const LOOPBACK: u32 = word(1);

/// Whether an IPv4 address is 0.0.0.0, in 127.0.0.0/8 or 224.0.0.0/4, or 255.255.255.255.
#[inline(always)]
pub fn is_forbidden(address: u32) -> bool {
    address.wrapping_add(1) <= 1 || address & 0xff == 127 || address & 0xf0 == 0xe0
}

/// An IPv6 address.
#[derive(Clone, Copy, Debug, PartialEq, Eq)]
pub struct Six {
    pub prefix: u64,
    pub identifier: u64,
}

impl Six {
    #[inline(always)]
    pub fn new(bytes: &Address) -> Six {
        Six::at(bytes, 0)
    }

    #[inline(always)]
    pub fn at<const N: usize>(bytes: &[u8; N], at: usize) -> Six {
        Six { prefix: word64(bytes, at), identifier: word64(bytes, at + 8) }
    }

    /// The link-local ISATAP address of an IPv4 address, as we form it.
    #[inline(always)]
    pub fn link_local(address: u32) -> Six {
        Six { prefix: LINK_LOCAL, identifier: word_of(ISATAP, address) }
    }

    #[inline(always)]
    pub fn is_link_local(&self) -> bool {
        self.prefix == LINK_LOCAL
    }

    /// Whether its identifier is that of an ISATAP address.
    #[inline(always)]
    pub fn is_isatap(&self) -> bool {
        (self.identifier & !UNIVERSAL) as u32 == ISATAP
    }

    /// Whether its identifier is that of an ISATAP address that embeds this IPv4 address.
    #[inline(always)]
    pub fn embeds(&self, address: u32) -> bool {
        self.identifier & !UNIVERSAL == word_of(ISATAP, address)
    }

    /// The last 32 bits.
    #[inline(always)]
    pub fn embedded(&self) -> u32 {
        upper(self.identifier)
    }

    fn is_multicast(&self) -> bool {
        self.prefix as u8 == 0xff
    }

    pub fn is_unspecified(&self) -> bool {
        self.prefix | self.identifier == 0
    }

    /// Multicast or `::`: no reporting address, and no source to send a message to.
    pub fn is_no_host(&self) -> bool {
        self.is_multicast() || self.is_unspecified()
    }

    /// Multicast, or 96 zero bits before a forbidden IPv4 address, as in `::`, or before that of `::1`.
    #[inline(always)]
    pub fn is_bad_source(&self) -> bool {
        let compatible = self.prefix == 0 && self.identifier as u32 == 0;
        self.is_multicast() || compatible && (is_forbidden(self.embedded()) || self.embedded() == LOOPBACK)
    }
}
