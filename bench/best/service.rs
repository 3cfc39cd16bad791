//! One service of a node (R26): what it has of its own, made of its settings (R2).

use super::address::Six;
use super::locators::{Locators, Prefixes};
use super::messages::Reporter;
use super::pieces::{Collection, PLACES};
use super::routers::Routers;
use crate::plain::Settings;

const LINK_SIZES: std::ops::RangeInclusive<u16> = 576..=9216;
const INTERVALS: std::ops::RangeInclusive<u16> = 1..=3600;

#[derive(Clone, Copy, Debug, PartialEq, Eq)]
pub struct Service {
    pub locators: Locators,
    pub prefixes: Prefixes,
    pub routers: Routers,
    pub pieces: Collection,
    pub reporter: Reporter,
    pub link_size: u16,
    pub interval: u16,
    /// Of the next packet that is wrapped.
    pub identification: u16,
}

impl Service {
    /// `None` where the settings break the rules.
    #[inline(always)]
    pub fn new(settings: &Settings) -> Option<Service> {
        let reporting = Six::new(&settings.reporting);
        let numbers = LINK_SIZES.contains(&settings.link_size) && INTERVALS.contains(&settings.interval);
        if !numbers || settings.ttl == 0 || reporting.is_no_host() {
            return None;
        }
        let locators = Locators::new(settings)?;
        let routers = settings.routers.get(..settings.router_count)?;
        Some(Service {
            prefixes: Prefixes::new(settings)?,
            routers: Routers::EMPTY.replaced(routers, &locators, 0)?,
            locators,
            pieces: Collection { places: [Default::default(); PLACES] },
            reporter: Reporter::new(reporting),
            link_size: settings.link_size,
            interval: settings.interval,
            identification: settings.identification,
        })
    }
}
