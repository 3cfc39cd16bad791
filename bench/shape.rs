//! The tunnel ends of the rows: how many of everything they have, and the addresses of it.

use crate::check::Check;
use crate::nodes::Nodes;
use crate::packets::size_report;
use crate::plain::{Locator, Settings};
use crate::work::{INTERFACE, START};

pub const OWN: u32 = 0x0a01_0001;
/// The first locator of each service; others follow.
pub const OWNS: [u32; 2] = [OWN, OWN + 0x100];
/// The first router of a list; the others follow.
pub const ROUTER: u32 = 0x0a02_0001;
/// The neighbours that a full path table keeps, and others.
pub const KEPT: u32 = 0x0a03_0000;
pub const OTHER: u32 = 0x0a04_0000;
/// One in the middle of a full table.
pub const NEXT_HOP: u32 = KEPT + 32;
pub const LINK_SIZE: u16 = 9000;
const REPORTED: u16 = 1500;

/// The numbered on-link prefix.
pub fn prefix(place: u8) -> [u8; 8] {
    [0x20, 1, 0xd, 0xb8, 0, 0, 0, 1 + place]
}

/// What a service has so many of, and the neighbours that its node keeps.
#[derive(Clone, Copy)]
pub struct Shape {
    pub locators: usize,
    pub prefixes: usize,
    pub routers: usize,
    pub kept: u32,
    pub link_size: u16,
}

impl Shape {
    /// That of most rows.
    pub const COMMON: Shape = Shape { locators: 2, prefixes: 2, routers: 4, kept: 0, link_size: LINK_SIZE };
    /// One locator, and nothing that need not be.
    pub const LEAST: Shape = Shape { locators: 1, prefixes: 0, routers: 0, kept: 0, link_size: Settings::LINK_SIZE };

    /// Settings of a service whose locators have addresses from that on.
    pub fn settings(&self, own: u32) -> Settings {
        let Shape { locators, prefixes, routers, link_size, .. } = *self;
        let mut settings =
            Settings { locator_count: locators, prefix_count: prefixes, router_count: routers, ..Settings::default() };
        for (place, locator) in settings.locators.iter_mut().enumerate() {
            *locator = Locator { address: own + place as u32, interface: INTERFACE + place as u8 };
        }
        settings.prefixes = [0, 1, 2, 3, 4, 5, 6, 7].map(prefix);
        settings.routers = std::array::from_fn(|place| ROUTER + place as u32);
        Settings { link_size, interval: 1, ..settings.defaults() }
    }

    /// A node of one such service.
    pub fn nodes(&self, check: &mut Check) -> Nodes {
        let nodes = Nodes::new(check, &self.settings(OWN)).expect("settings that are allowed");
        self.keeping(check, nodes)
    }

    /// A node of two, of which that one is named.
    pub fn nodes_of_two(&self, check: &mut Check, service: u8) -> Nodes {
        let [first, second] = OWNS.map(|own| self.settings(own));
        let mut nodes = Nodes::pair(check, &first, &second).expect("settings that are allowed");
        nodes.service = service;
        self.keeping(check, nodes)
    }

    fn keeping(&self, check: &mut Check, mut nodes: Nodes) -> Nodes {
        for neighbour in KEPT..KEPT + self.kept {
            let message = size_report(&mut check.random, REPORTED.min(self.link_size - 1), 0, (OWN, neighbour), 0, 8);
            assert_eq!(nodes.report(check, &message, START), 0);
        }
        nodes
    }
}

/// A node of the common shape with so many neighbours kept.
pub fn nodes(check: &mut Check, kept: u32) -> Nodes {
    Shape { kept, ..Shape::COMMON }.nodes(check)
}

/// A node of two services of the common shape, of which that one is named.
pub fn nodes_of_two(check: &mut Check, kept: u32, service: u8) -> Nodes {
    Shape { kept, ..Shape::COMMON }.nodes_of_two(check, service)
}
