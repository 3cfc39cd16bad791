//! What an operator sets of an advertisement.

use crate::raw;
use std::net::Ipv6Addr;

/// A prefix that an advertisement names (RFC 4861, 4.6.2). Lifetimes are seconds; `u32::MAX` is for ever.
#[derive(Clone, Copy, Debug, PartialEq, Eq, Hash)]
pub struct AdvertisedPrefix {
    /// The prefix; bits past the length are written as 0.
    pub prefix: Ipv6Addr,
    /// In bits, 0 to 128.
    pub length: u8,
    /// Whether its addresses are on this link: the flag L.
    pub on_link: bool,
    /// Whether a host may form addresses of it: the flag A.
    pub autonomous: bool,
    /// The valid lifetime.
    pub valid: u32,
    /// The preferred lifetime.
    pub preferred: u32,
}

/// A route that an advertisement names (RFC 4191, 2.3).
#[derive(Clone, Copy, Debug, PartialEq, Eq, Hash)]
pub struct AdvertisedRoute {
    /// The prefix; bits past the length are written as 0.
    pub prefix: Ipv6Addr,
    /// In bits, 0 to 128.
    pub length: u8,
    /// How the router is preferred for it.
    pub preference: Preference,
    /// In seconds; `u32::MAX` is for ever.
    pub lifetime: u32,
}

/// How a router is preferred for a route.
#[derive(Clone, Copy, Debug, Default, PartialEq, Eq, Hash)]
#[repr(u8)]
pub enum Preference {
    /// As any other.
    #[default]
    Medium = 0,
    /// Before the others.
    High = 1,
    /// Behind the others.
    Low = 2,
}

/// What an operator sets of an advertisement: the router's lifetime, and flags, prefixes and routes, which each have a method.
///
/// Advertisements of any values can be made; [`Node::advertise`](crate::Node::advertise) refuses those that break a rule.
#[derive(Clone, Copy, Debug, PartialEq, Eq)]
#[must_use]
pub struct Advertisement {
    pub(crate) raw: raw::Advertisement,
}

impl Advertisement {
    /// A router with that lifetime as a default router, in seconds, 0 for none, without flag, prefix or route.
    pub fn new(lifetime: u16) -> Advertisement {
        Advertisement { raw: raw::Advertisement { lifetime, ..raw::Advertisement::default() } }
    }

    /// Whether addresses are had by DHCPv6: the flag M.
    pub fn managed(mut self, managed: bool) -> Advertisement {
        self.raw.managed = managed.into();
        self
    }

    /// Whether other information is had by DHCPv6: the flag O.
    pub fn other(mut self, other: bool) -> Advertisement {
        self.raw.other = other.into();
        self
    }

    /// Prefixes, 0 to 8, in the order in which they are written.
    pub fn prefixes(mut self, prefixes: &[AdvertisedPrefix]) -> Advertisement {
        self.raw.prefix_count = prefixes.len();
        for (place, prefix) in self.raw.prefixes.iter_mut().zip(prefixes) {
            *place = raw::AdvertisedPrefix {
                bytes: prefix.prefix.octets(),
                valid: prefix.valid,
                preferred: prefix.preferred,
                length: prefix.length,
                on_link: prefix.on_link.into(),
                autonomous: prefix.autonomous.into(),
            };
        }
        self
    }

    /// Routes, 0 to 8, in the order in which they are written.
    pub fn routes(mut self, routes: &[AdvertisedRoute]) -> Advertisement {
        self.raw.route_count = routes.len();
        for (place, route) in self.raw.routes.iter_mut().zip(routes) {
            *place = raw::AdvertisedRoute {
                bytes: route.prefix.octets(),
                lifetime: route.lifetime,
                length: route.length,
                preference: route.preference as u8,
            };
        }
        self
    }
}
