//! One service of a node (docs/RULES.md, R26) in plain Rust: what it has of its own, and its calls at a time, with the reports that the
//! node keeps.

use super::pieces::{Collection, Piece, Place, MEMORY};
use super::rules::{self, address_at, forbidden, isatap, Address, Advertisement, Outer, OuterRead, Refusal};
use super::rules::{OUTER_HEADER, TUNNELLED};
use super::PathTable;
use std::ops::Range;

pub const LOCATORS: usize = 8;
pub const PREFIXES: usize = 8;
pub const ROUTERS: usize = 16;
/// The smallest size of an IPv6 link, which no tunnel goes below.
const LEAST: usize = 1280;
/// When to ask a router again whose advertisement has no lifetime that counts.
const RENEWAL: u32 = 3600;

#[derive(Clone, Copy, Debug, Default, PartialEq, Eq)]
pub struct Locator {
    pub address: u32,
    pub interface: u8,
}

/// What an operator sets of a service; a count above its array's length is refused with the rest.
#[derive(Clone, Copy, Debug, Default, PartialEq, Eq)]
pub struct Settings {
    pub locators: [Locator; LOCATORS],
    pub locator_count: usize,
    pub prefixes: [[u8; 8]; PREFIXES],
    pub prefix_count: usize,
    pub routers: [u32; ROUTERS],
    pub router_count: usize,
    pub link_size: u16,
    pub ttl: u8,
    pub interval: u16,
    pub identification: u16,
    pub reporting: Address,
}

impl Settings {
    pub const LINK_SIZE: u16 = 1500;
    pub const TTL: u8 = 64;
    pub const INTERVAL: u16 = 120;
    pub const IDENTIFICATION: u16 = 1;

    /// The same locators, prefixes and routers, and the defaults for the rest.
    pub fn defaults(self) -> Settings {
        Settings {
            link_size: Settings::LINK_SIZE,
            ttl: Settings::TTL,
            interval: Settings::INTERVAL,
            identification: Settings::IDENTIFICATION,
            reporting: rules::link_local(self.locators[0].address),
            ..self
        }
    }

    fn locators(&self) -> &[Locator] {
        &self.locators[..self.locator_count]
    }

    fn prefixes(&self) -> &[[u8; 8]] {
        &self.prefixes[..self.prefix_count]
    }

    /// Whether a locator, on whatever interface, has the address.
    pub fn is_own(&self, address: u32) -> bool {
        self.locators().iter().any(|locator| locator.address == address)
    }

    pub fn allowed(&self) -> bool {
        let (Some(locators), Some(routers)) =
            (self.locators.get(..self.locator_count), self.routers.get(..self.router_count))
        else {
            return false;
        };
        !locators.is_empty()
            && self.prefix_count <= PREFIXES
            && !locators.iter().any(|locator| forbidden(locator.address))
            && distinct(locators)
            && self.routers_allowed(routers)
            && (576..=9216).contains(&self.link_size)
            && self.ttl != 0
            && (1..=3600).contains(&self.interval)
            && !rules::no_host(&self.reporting)
    }

    /// Whether no locator has the address of one of the other settings, on whatever interface.
    pub fn is_apart(&self, other: &Settings) -> bool {
        !self.locators().iter().any(|locator| other.is_own(locator.address))
    }

    fn routers_allowed(&self, routers: &[u32]) -> bool {
        routers.len() <= ROUTERS
            && !routers.iter().any(|&router| forbidden(router) || self.is_own(router))
            && distinct(routers)
    }
}

fn distinct<T: PartialEq>(items: &[T]) -> bool {
    (1..items.len()).all(|i| !items[..i].contains(&items[i]))
}

#[derive(Clone, Copy, Debug, Default, PartialEq, Eq)]
pub struct Router {
    pub address: u32,
    /// Exact, so it may lie past the last 32-bit second.
    pub due: u64,
}

/// The routers in force.
#[derive(Clone, Copy, Debug, Default, PartialEq, Eq)]
pub struct RouterList {
    routers: [Router; ROUTERS],
    count: usize,
}

impl RouterList {
    pub fn as_slice(&self) -> &[Router] {
        &self.routers[..self.count]
    }

    fn find(&self, address: u32) -> Option<&Router> {
        self.as_slice().iter().find(|router| router.address == address)
    }

    fn find_mut(&mut self, address: u32) -> Option<&mut Router> {
        self.routers[..self.count].iter_mut().find(|router| router.address == address)
    }

    /// The list of these addresses: a router of this list keeps its due time, a new one is due at `now`.
    fn replaced(&self, addresses: &[u32], now: u32) -> RouterList {
        let mut next = RouterList { count: addresses.len(), ..RouterList::default() };
        for (place, &address) in next.routers.iter_mut().zip(addresses) {
            let due = self.find(address).map_or(u64::from(now), |router| router.due);
            *place = Router { address, due };
        }
        next
    }

    /// The router with the earliest due time that is not in the future, the lowest place on a tie.
    fn due_first(&mut self, now: u32) -> Option<&mut Router> {
        self.routers[..self.count]
            .iter_mut()
            .filter(|router| router.due <= u64::from(now))
            .min_by_key(|router| router.due)
    }
}

/// Where the inner packet stands of a datagram that is delivered: in the datagram, or in the memory of what was joined.
#[derive(Clone, Debug, PartialEq, Eq)]
pub enum Received {
    Whole(Range<usize>),
    Joined(Range<usize>),
}

/// What sending answers when it does not refuse; `TooBig` is number 14.
#[derive(Clone, Copy, Debug, PartialEq, Eq)]
pub enum Sent {
    Wrapped { length: usize },
    TooBig { size: u16, length: usize },
}

/// What a service has of its own.
#[derive(Clone, Copy, Debug, PartialEq, Eq)]
pub struct Service {
    settings: Settings,
    routers: RouterList,
    pieces: Collection,
    identification: u16,
}

impl Service {
    /// The service of settings that are allowed.
    pub fn new(settings: &Settings) -> Service {
        Service {
            settings: *settings,
            routers: RouterList::default().replaced(&settings.routers[..settings.router_count], 0),
            pieces: Collection::default(),
            identification: settings.identification,
        }
    }

    /// Where the inner packet stands, also of a datagram that a piece completes; 15, 2, 3, 4, 6, 7, then for a piece 30, 29, 28, 27, and 8,
    /// 9, 10.
    pub fn receive(
        &mut self,
        datagram: &[u8],
        interface: u8,
        now: u32,
        memory: &mut [u8],
    ) -> Result<Received, Refusal> {
        let memory = memory.first_chunk_mut::<MEMORY>().ok_or(Refusal::Room)?;
        let outer = rules::read_any_outer(datagram)?;
        self.arrives(&outer, interface)?;
        let payload = outer.payload(datagram);
        if !outer.is_piece() {
            let start = usize::from(outer.header);
            let length = self.admitted(outer.source, payload)?;
            return Ok(Received::Whole(start..start + length));
        }
        let joined = self.pieces.take(&Piece::new(&outer, payload), now, memory)?;
        let length = self.admitted(outer.source, &memory[joined.clone()])?;
        Ok(Received::Joined(joined.start..joined.start + length))
    }

    /// The part of the datagram that holds the inner packet; 2 to 10, 5 for a piece.
    pub fn received_part<'d>(&self, datagram: &'d [u8], interface: u8) -> Result<&'d [u8], Refusal> {
        let outer = rules::read_outer(datagram)?;
        self.arrives(&outer, interface)?;
        let payload = outer.payload(datagram);
        self.admitted(outer.source, payload).map(|length| &payload[..length])
    }

    /// Whether the datagram is for us, from an address that may send; 6, 7.
    fn arrives(&self, outer: &OuterRead, interface: u8) -> Result<(), Refusal> {
        let ours = Locator { address: outer.destination, interface };
        if !self.settings.locators().contains(&ours) {
            return Err(Refusal::NotOurs);
        }
        if forbidden(outer.source) {
            return Err(Refusal::OuterSource);
        }
        Ok(())
    }

    /// The length of the inner packet at the start of a datagram's payload, whose outer source may send it; 8, 9, 10.
    fn admitted(&self, outer_source: u32, payload: &[u8]) -> Result<usize, Refusal> {
        let length = rules::inner_length(payload)?;
        let source = address_at(payload, 8);
        if rules::bad_source(&source) {
            return Err(Refusal::InnerSource);
        }
        let embedded = isatap(self.settings.prefixes(), &source) == Some(outer_source);
        if !embedded && self.routers.find(outer_source).is_none() {
            return Err(Refusal::SourcesDiffer);
        }
        Ok(length)
    }

    /// Wraps the packet for the next hop, or answers Too Big; 8, 11, 12, 13, 23, 15.
    pub fn send(
        &mut self,
        packet: &[u8],
        next_hop: &Address,
        locator: usize,
        kept: &PathTable,
        now: u32,
        out: &mut [u8],
    ) -> Result<Sent, Refusal> {
        if rules::inner_length(packet)? != packet.len() {
            return Err(Refusal::InnerMalformed);
        }
        let source = self.locator(locator)?;
        let end = isatap(self.settings.prefixes(), next_hop).ok_or(Refusal::NextHop)?;
        if forbidden(end) || self.settings.is_own(end) {
            return Err(Refusal::TunnelEnd);
        }
        let passed = usize::from(self.path_size(kept, end, now)) - OUTER_HEADER;
        let limit = passed.max(LEAST);
        if packet.len() > limit {
            return self.answer_too_big(limit as u16, packet, out);
        }
        let outer = Outer {
            identification: self.identification,
            dont_fragment: passed > LEAST,
            ttl: self.settings.ttl,
            protocol: TUNNELLED,
            source,
            destination: end,
        };
        let length = rules::wrap(&outer, packet, out)?;
        self.identification = self.identification.wrapping_add(1);
        Ok(Sent::Wrapped { length })
    }

    fn answer_too_big(&self, size: u16, packet: &[u8], out: &mut [u8]) -> Result<Sent, Refusal> {
        let length =
            if rules::unanswered(packet) { 0 } else { rules::too_big(&self.settings.reporting, size, packet, out)? };
        Ok(Sent::TooBig { size, length })
    }

    /// Replaces the router list; 1.
    pub fn replace_routers(&mut self, routers: &[u32], now: u32) -> Result<(), Refusal> {
        if !self.settings.routers_allowed(routers) {
            return Err(Refusal::Settings);
        }
        self.routers = self.routers.replaced(routers, now);
        Ok(())
    }

    /// Writes a solicitation to the router that is due first, and names it; 11, 22, 15.
    pub fn ask(&mut self, locator: usize, now: u32, out: &mut [u8]) -> Result<u32, Refusal> {
        let source = self.locator(locator)?;
        let router = self.routers.due_first(now).ok_or(Refusal::NoneDue)?;
        rules::solicitation(source, router.address, out)?;
        router.due = u64::from(now) + u64::from(self.settings.interval);
        Ok(router.address)
    }

    /// Takes a router advertisement in, and names the router; 8, 20, 21.
    pub fn hear(&mut self, packet: &[u8], now: u32) -> Result<u32, Refusal> {
        let packet = &packet[..rules::inner_length(packet)?];
        let lifetime = rules::advertised_lifetime(packet)?;
        let advertiser = isatap(&[], &address_at(packet, 8)).ok_or(Refusal::Unlisted)?;
        let router = self.routers.find_mut(advertiser).ok_or(Refusal::Unlisted)?;
        let wait = lifetime.map_or(RENEWAL, |lifetime| (lifetime / 2).max(u32::from(self.settings.interval)));
        router.due = u64::from(now) + u64::from(wait);
        Ok(advertiser)
    }

    /// Writes the operator's advertisement for the packet that asks and gives its length; 8, 11, 24, 25, 26, 15.
    pub fn advertise(
        &self,
        packet: &[u8],
        locator: usize,
        advertised: &Advertisement,
        out: &mut [u8],
    ) -> Result<usize, Refusal> {
        let packet = &packet[..rules::inner_length(packet)?];
        let source = self.locator(locator)?;
        let asker = rules::solicited(packet)?;
        isatap(&[], &asker).ok_or(Refusal::Asker)?;
        rules::advertisement(source, &asker, advertised, out)
    }

    /// The size in force toward the neighbour: the smaller of the link size and the one that is kept, whoever reported that.
    pub fn path_size(&self, kept: &PathTable, neighbour: u32, now: u32) -> u16 {
        let link_size = self.settings.link_size;
        kept.size(neighbour, now).map_or(link_size, |size| size.min(link_size))
    }

    pub fn settings(&self) -> &Settings {
        &self.settings
    }

    pub fn routers(&self) -> &[Router] {
        self.routers.as_slice()
    }

    /// The places of the datagrams that are collected.
    pub fn places(&self) -> &[Place] {
        &self.pieces.places
    }

    pub fn places_mut(&mut self) -> &mut [Place] {
        &mut self.pieces.places
    }

    pub fn identification(&self) -> u16 {
        self.identification
    }

    /// The address of the locator of that number; 11.
    fn locator(&self, number: usize) -> Result<u32, Refusal> {
        self.settings.locators().get(number).map(|locator| locator.address).ok_or(Refusal::NoSuchNumber)
    }
}
