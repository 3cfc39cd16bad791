//! The addresses of a service and its on-link prefixes, in arrays of fixed length, so that nothing is counted: what stands behind the last one
//! is one of them again.

use super::address::{is_forbidden, word, Six, LINK_LOCAL};
use super::bytes::word_of;
use super::outer::{Start, TUNNELLED};
use crate::plain::{Refusal, Settings};

const LOCATORS: usize = 8;
const PREFIXES: usize = 8;

#[derive(Clone, Copy, Debug, PartialEq, Eq)]
pub struct Locators {
    addresses: [u32; LOCATORS],
    /// Address and interface as one number.
    arrivals: [u64; LOCATORS],
    /// What outer headers from each begin with.
    starts: [Start; LOCATORS],
    count: usize,
}

/// The number of an address with the interface that its datagrams arrive on.
#[inline(always)]
fn arrival(address: u32, interface: u8) -> u64 {
    word_of(address, interface.into())
}

impl Locators {
    /// `None` where they break the rules (R2.1, R2.2).
    pub fn new(settings: &Settings) -> Option<Locators> {
        let locators = settings.locators.get(..settings.locator_count)?;
        let first = locators.first()?;
        let mut made = Locators {
            addresses: [word(first.address); LOCATORS],
            arrivals: [arrival(word(first.address), first.interface); LOCATORS],
            starts: [Start::new(settings.ttl, TUNNELLED, word(first.address)); LOCATORS],
            count: locators.len(),
        };
        for (place, locator) in locators.iter().enumerate() {
            let address = word(locator.address);
            let arrival = arrival(address, locator.interface);
            if is_forbidden(address) || made.arrivals[..place].contains(&arrival) {
                return None;
            }
            made.addresses[place] = address;
            made.arrivals[place] = arrival;
            made.starts[place] = Start::new(settings.ttl, TUNNELLED, address);
        }
        Some(made)
    }

    /// Whether a locator, on whatever interface, has the address.
    #[inline(always)]
    pub fn has(&self, address: u32) -> bool {
        self.addresses.iter().fold(false, |found, &own| found | (own == address))
    }

    /// Whether datagrams to the address arrive on the interface.
    #[inline(always)]
    pub fn admit(&self, address: u32, interface: u8) -> bool {
        let arrival = arrival(address, interface);
        self.arrivals.iter().any(|&own| own == arrival)
    }

    /// What outer headers from the numbered locator begin with; 11.
    #[inline(always)]
    pub fn start(&self, number: usize) -> Result<&Start, Refusal> {
        if number >= self.count {
            return Err(Refusal::NoSuchNumber);
        }
        Ok(&self.starts[number % LOCATORS])
    }

    /// Whether no locator has the address of one of the others.
    pub fn is_apart(&self, others: &Locators) -> bool {
        !self.addresses.iter().any(|&address| others.has(address))
    }
}

/// Those of the settings; fe80::/64 counts beside them.
#[derive(Clone, Copy, Debug, PartialEq, Eq)]
pub struct Prefixes([u64; PREFIXES]);

impl Prefixes {
    /// `None` where they are too many.
    pub fn new(settings: &Settings) -> Option<Prefixes> {
        let mut made = Prefixes([LINK_LOCAL; PREFIXES]);
        for (place, prefix) in made.0.iter_mut().zip(settings.prefixes.get(..settings.prefix_count)?) {
            *place = u64::from_le_bytes(*prefix);
        }
        Some(made)
    }

    #[inline(always)]
    pub fn has(&self, address: &Six) -> bool {
        address.prefix == LINK_LOCAL || self.0.iter().any(|&prefix| prefix == address.prefix)
    }
}
