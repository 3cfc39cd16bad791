//! Asking (R13), advertisements (R15, R16), advertising (R22) and a new router list (R2.13).

use super::address::{word, Six};
use super::advertising::{is_solicitation, write_advertisement};
use super::bytes::{upper, word16, word64};
use super::inner::{each_option, is_checksum_right, Inner, HEADER, SOURCE};
use super::messages::write_solicitation;
use super::service::Service;
use crate::plain::{Advertisement, Refusal};

const ADVERTISEMENT: u16 = 134;
/// Type and length of the options that have a lifetime: a prefix, and a route of each length.
const PREFIX: u16 = u16::from_le_bytes([3, 4]);
const ROUTE_1: u16 = u16::from_le_bytes([24, 1]);
const ROUTE_2: u16 = u16::from_le_bytes([24, 2]);
const ROUTE_3: u16 = u16::from_le_bytes([24, 3]);
/// When to ask a router again whose advertisement has no lifetime that counts.
const RENEWAL: u32 = 3600;

impl Service {
    /// Replaces the router list; 1.
    #[inline(always)]
    pub fn replace_routers(&mut self, routers: &[u32], now: u32) -> Result<(), Refusal> {
        self.routers = self.routers.replaced(routers, &self.locators, now).ok_or(Refusal::Settings)?;
        Ok(())
    }

    /// Writes a solicitation to the router that is due first, and names it; 11, 22, 15.
    #[inline(always)]
    pub fn ask(&mut self, locator: usize, now: u32, out: &mut [u8]) -> Result<u32, Refusal> {
        let source = self.locators.start(locator)?.source();
        let place = self.routers.first_due(now).ok_or(Refusal::NoneDue)?;
        let router = self.routers.address(place);
        write_solicitation(source, router, out.first_chunk_mut().ok_or(Refusal::Room)?);
        self.routers.set_due(place, u64::from(now) + u64::from(self.interval));
        Ok(word(router))
    }

    /// Takes a router advertisement in, and names the router; 8, 20, 21.
    #[inline(always)]
    pub fn hear(&mut self, packet: &[u8], now: u32) -> Result<u32, Refusal> {
        let inner = Inner::read(packet)?;
        if !inner.is_discovery() {
            return Err(Refusal::NoAdvertisement);
        }
        self.hear_discovery(&packet[..inner.length], now)
    }

    /// Of a packet with such a header.
    #[inline(never)]
    fn hear_discovery(&mut self, packet: &[u8], now: u32) -> Result<u32, Refusal> {
        let source = Six::at(packet.first_chunk::<HEADER>().ok_or(Refusal::InnerMalformed)?, SOURCE);
        if !source.is_link_local() {
            return Err(Refusal::NoAdvertisement);
        }
        let lifetime = least_lifetime(packet).ok_or(Refusal::NoAdvertisement)?;
        let listed = if source.is_isatap() { self.routers.find(source.embedded()) } else { None };
        let place = listed.ok_or(Refusal::Unlisted)?;
        let wait = lifetime.counted().map_or(RENEWAL, |lifetime| (lifetime / 2).max(self.interval.into()));
        self.routers.set_due(place, u64::from(now) + u64::from(wait));
        Ok(word(source.embedded()))
    }

    /// Writes the operator's advertisement for the packet that asks and gives its length; 8, 11, 24, 25, 26, 15.
    #[inline(always)]
    pub fn advertise(
        &self,
        packet: &[u8],
        locator: usize,
        advertised: &Advertisement,
        out: &mut [u8],
    ) -> Result<usize, Refusal> {
        let inner = Inner::read(packet)?;
        let own = self.locators.start(locator)?.source();
        if !is_solicitation(&inner, &packet[..inner.length]) {
            return Err(Refusal::NoSolicitation);
        }
        let asker = inner.source();
        if !asker.is_link_local() || !asker.is_isatap() {
            return Err(Refusal::Asker);
        }
        write_advertisement(own, &asker, advertised, out)
    }
}

/// The least of some lifetimes, less 1: so 0 and 0xffffffff, which do not count, are the two largest.
struct Least(u32);

impl Least {
    #[inline(always)]
    fn add(&mut self, lifetime: u32) {
        self.0 = self.0.min(lifetime.wrapping_sub(1));
    }

    fn counted(&self) -> Option<u32> {
        (self.0 < u32::MAX - 1).then_some(self.0 + 1)
    }
}

/// The lifetimes of a packet that is an advertisement but for what its header says; `None` where it is none.
#[inline(always)]
fn least_lifetime(packet: &[u8]) -> Option<Least> {
    let (front, options) = packet[HEADER..].split_first_chunk::<16>()?;
    if word16(front, 0) != ADVERTISEMENT {
        return None;
    }
    let mut least = Least(u32::MAX);
    least.add(((word64(front, 0) >> 48) as u16).swap_bytes().into());
    let walked = each_option(options, |front| {
        if matches!(front as u16, PREFIX | ROUTE_1 | ROUTE_2 | ROUTE_3) {
            least.add(upper(front).swap_bytes());
        }
    });
    (walked && is_checksum_right(packet)).then_some(least)
}
