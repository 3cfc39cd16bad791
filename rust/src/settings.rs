//! What an operator sets.

use crate::raw;
use std::net::{Ipv4Addr, Ipv6Addr};

/// One of our IPv4 addresses, and the interface that its datagrams arrive on.
#[derive(Clone, Copy, Debug, PartialEq, Eq, Hash)]
pub struct Locator {
    /// The address.
    pub address: Ipv4Addr,
    /// The interface's number.
    pub interface: u8,
}

impl Locator {
    /// The address on that interface.
    #[must_use]
    pub const fn new(address: Ipv4Addr, interface: u8) -> Locator {
        Locator { address, interface }
    }
}

/// An on-link prefix of 64 bits.
#[derive(Clone, Copy, Debug, PartialEq, Eq, Hash)]
pub struct Prefix(pub [u8; 8]);

impl From<Ipv6Addr> for Prefix {
    /// The first 64 bits of the address.
    fn from(address: Ipv6Addr) -> Prefix {
        let mut prefix = [0; 8];
        prefix.copy_from_slice(&address.octets()[..8]);
        Prefix(prefix)
    }
}

/// What an operator sets of a service: what [`Settings::new`] is given, and defaults that each have a method.
///
/// Settings of any values can be made; [`Node::new`](crate::Node::new) refuses those that break a rule.
///
/// ```
/// use bogtrumpet::{Locator, Settings};
/// use std::net::Ipv4Addr;
///
/// let locator = Locator::new(Ipv4Addr::new(10, 0, 0, 1), 0);
/// let settings = Settings::new(&[locator]).routers(&[Ipv4Addr::new(10, 0, 0, 9)]).link_size(1400);
/// assert!(bogtrumpet::Node::new(&settings).is_ok());
/// assert!(bogtrumpet::Node::new(&settings.link_size(100)).is_err());
/// ```
#[derive(Clone, Copy, Debug, PartialEq, Eq)]
#[must_use]
pub struct Settings {
    pub(crate) raw: raw::Settings,
}

impl Settings {
    /// These locators, 1 to 8, no pair twice and none forbidden, and the defaults: no prefix, no router, link size 1,500, TTL 64,
    /// interval 120, identification 1, reporting address the link-local address of the first locator.
    pub fn new(locators: &[Locator]) -> Settings {
        let mut raw = raw::Settings { locator_count: locators.len(), ..raw::Settings::EMPTY };
        for (place, locator) in raw.locators.iter_mut().zip(locators) {
            *place = raw::Locator { address: locator.address.into(), interface: locator.interface };
        }
        Settings { raw: raw.defaults() }
    }

    /// On-link prefixes, 0 to 8, beside fe80::/64.
    pub fn prefixes(mut self, prefixes: &[Prefix]) -> Settings {
        (self.raw.prefixes, self.raw.prefix_count) = (flat(prefixes), prefixes.len());
        self
    }

    /// Routers, 0 to 16, distinct, none forbidden or a locator's address.
    pub fn routers(mut self, routers: &[Ipv4Addr]) -> Settings {
        (self.raw.routers, self.raw.router_count) = (numbers(routers), routers.len());
        self
    }

    /// The link size, 576 to 9,216.
    pub fn link_size(mut self, size: u16) -> Settings {
        self.raw.link_size = size;
        self
    }

    /// The TTL of outer headers, 1 to 255.
    pub fn ttl(mut self, ttl: u8) -> Settings {
        self.raw.ttl = ttl;
        self
    }

    /// Seconds between solicitations of a router, 1 to 3,600.
    pub fn interval(mut self, seconds: u16) -> Settings {
        self.raw.interval = seconds;
        self
    }

    /// The identification of the first wrapped packet.
    pub fn identification(mut self, identification: u16) -> Settings {
        self.raw.identification = identification;
        self
    }

    /// The address that Too Big messages come from, neither multicast nor `::`.
    pub fn reporting(mut self, address: Ipv6Addr) -> Settings {
        self.raw.reporting = address.octets();
        self
    }
}

/// The first 8 prefixes, one behind the other.
pub(crate) fn flat(prefixes: &[Prefix]) -> [u8; 64] {
    let mut bytes = [0; 64];
    for (place, prefix) in bytes.chunks_exact_mut(8).zip(prefixes) {
        place.copy_from_slice(&prefix.0);
    }
    bytes
}

/// The first 16 addresses, as numbers.
pub(crate) fn numbers(addresses: &[Ipv4Addr]) -> [u32; 16] {
    let mut numbers = [0; 16];
    for (place, &address) in numbers.iter_mut().zip(addresses) {
        *place = address.into();
    }
    numbers
}
