//! One tunnel end, or two in one box, in plain Rust, written from the rules (docs/RULES.md) alone: the second implementation that the proved
//! library is compared with, and by which the benchmark checks its own. No heap; each call changes the node in place.

#[path = "plain_pieces.rs"]
pub mod pieces;
#[path = "plain_recordings.rs"]
pub mod recordings;
#[path = "plain_rules.rs"]
pub mod rules;
#[path = "plain_service.rs"]
mod service;

use rules::{forbidden, u16_at, u32_at, OUTER_HEADER, TUNNELLED};
pub use rules::{Address, Advertisement, Refusal};
pub use service::{Locator, Received, Sent, Service, Settings};

pub const NEIGHBOURS: usize = 64;
/// Seconds after which a size report is no longer in force.
const REPORT_AGE: u32 = 600;
const PLATEAUS: [u16; 11] = [65535, 32000, 17914, 8166, 4352, 2002, 1492, 1006, 508, 296, 68];

/// An accepted size report.
#[derive(Clone, Copy, Debug, Default, PartialEq, Eq)]
pub struct Report {
    pub neighbour: u32,
    pub size: u16,
    pub time: u32,
}

/// The last accepted report of each of the newest 64 neighbours, newest first.
#[derive(Clone, Copy, Debug, PartialEq, Eq)]
pub struct PathTable {
    reports: [Report; NEIGHBOURS],
    count: usize,
}

impl PathTable {
    pub fn new() -> PathTable {
        PathTable { reports: [Report { neighbour: 0, size: 0, time: 0 }; NEIGHBOURS], count: 0 }
    }

    pub fn as_slice(&self) -> &[Report] {
        &self.reports[..self.count]
    }

    fn place(&self, neighbour: u32) -> Option<usize> {
        self.as_slice().iter().position(|report| report.neighbour == neighbour)
    }

    /// The reported size toward the neighbour that is kept.
    pub fn size(&self, neighbour: u32, now: u32) -> Option<u16> {
        let report = &self.reports[self.place(neighbour)?];
        (now - report.time < REPORT_AGE).then_some(report.size)
    }

    /// Puts the report first. The neighbour's old one goes, or else the oldest if the table is full.
    pub fn accept(&mut self, report: Report) {
        let vacated = match self.place(report.neighbour) {
            Some(place) => place,
            None if self.count == NEIGHBOURS => NEIGHBOURS - 1,
            None => {
                self.count += 1;
                self.count - 1
            }
        };
        self.reports.copy_within(..vacated, 1);
        self.reports[0] = report;
    }
}

/// The services of a node, numbered from 0.
#[derive(Clone, Copy, Debug, PartialEq, Eq)]
struct Services {
    first: Service,
    second: Option<Service>,
}

impl Services {
    /// The service of that number; 11.
    fn get(&self, number: u8) -> Result<&Service, Refusal> {
        match (number, &self.second) {
            (0, _) => Ok(&self.first),
            (1, Some(second)) => Ok(second),
            _ => Err(Refusal::NoSuchNumber),
        }
    }

    fn get_mut(&mut self, number: u8) -> Result<&mut Service, Refusal> {
        match (number, &mut self.second) {
            (0, _) => Ok(&mut self.first),
            (1, Some(second)) => Ok(second),
            _ => Err(Refusal::NoSuchNumber),
        }
    }

    /// The first that has a locator of the address.
    fn owner(&self, address: u32) -> Option<&Service> {
        [Some(&self.first), self.second.as_ref()]
            .into_iter()
            .flatten()
            .find(|service| service.settings().is_own(address))
    }
}

/// A node of one service or of two. Every call but a report names its service; one that the node has not gives 11, before all else.
#[derive(Clone, Copy, Debug, PartialEq, Eq)]
pub struct Node {
    services: Services,
    paths: PathTable,
    latest: u32,
}

impl Node {
    /// A node of one service with these settings, all routers due at 0; 1.
    pub fn new(settings: &Settings) -> Result<Node, Refusal> {
        if !settings.allowed() {
            return Err(Refusal::Settings);
        }
        Ok(Node::of(Services { first: Service::new(settings), second: None }))
    }

    /// A node of two services with these settings, all routers due at 0; 1.
    pub fn new_pair(first: &Settings, second: &Settings) -> Result<Node, Refusal> {
        if !first.allowed() || !second.allowed() || !first.is_apart(second) {
            return Err(Refusal::Settings);
        }
        Ok(Node::of(Services { first: Service::new(first), second: Some(Service::new(second)) }))
    }

    fn of(services: Services) -> Node {
        Node { services, paths: PathTable::new(), latest: 0 }
    }

    pub fn receive(
        &mut self,
        service: u8,
        datagram: &[u8],
        interface: u8,
        time: u32,
        memory: &mut [u8],
    ) -> Result<Received, Refusal> {
        self.raise(time);
        self.services.get_mut(service)?.receive(datagram, interface, self.latest, memory)
    }

    /// The part of the datagram that holds the inner packet, empty where it is refused, and for a piece.
    pub fn received_part<'d>(&self, service: u8, datagram: &'d [u8], interface: u8) -> &'d [u8] {
        let part = self.services.get(service).and_then(|service| service.received_part(datagram, interface));
        part.unwrap_or(&[])
    }

    pub fn send(
        &mut self,
        service: u8,
        packet: &[u8],
        next_hop: &Address,
        locator: usize,
        time: u32,
        out: &mut [u8],
    ) -> Result<Sent, Refusal> {
        self.raise(time);
        self.services.get_mut(service)?.send(packet, next_hop, locator, &self.paths, self.latest, out)
    }

    /// Takes an ICMPv4 message in, which belongs to the service whose locator it quotes, and gives the neighbour and its size; 16 to 19.
    pub fn report(&mut self, message: &[u8], time: u32) -> Result<(u32, u16), Refusal> {
        self.raise(time);
        let quote = quoted_header(message)?;
        let (protocol, source, neighbour) = (quote[9], u32_at(quote, 12), u32_at(quote, 16));
        let service = self.services.owner(source).ok_or(Refusal::ForeignQuote)?;
        if protocol != TUNNELLED || forbidden(neighbour) || service.settings().is_own(neighbour) {
            return Err(Refusal::ForeignQuote);
        }
        let size = match u16_at(message, 6) {
            0 => plateau_below(u16_at(quote, 2)).ok_or(Refusal::UnusableSize)?,
            1..=67 => return Err(Refusal::UnusableSize),
            size => size,
        };
        if size >= service.path_size(&self.paths, neighbour, self.latest) {
            return Err(Refusal::SizeNotBelow);
        }
        self.paths.accept(Report { neighbour, size, time: self.latest });
        Ok((neighbour, size))
    }

    pub fn replace_routers(&mut self, service: u8, routers: &[u32], time: u32) -> Result<(), Refusal> {
        self.raise(time);
        self.services.get_mut(service)?.replace_routers(routers, self.latest)
    }

    pub fn ask(&mut self, service: u8, locator: usize, time: u32, out: &mut [u8]) -> Result<u32, Refusal> {
        self.raise(time);
        self.services.get_mut(service)?.ask(locator, self.latest, out)
    }

    pub fn hear(&mut self, service: u8, packet: &[u8], time: u32) -> Result<u32, Refusal> {
        self.raise(time);
        self.services.get_mut(service)?.hear(packet, self.latest)
    }

    pub fn advertise(
        &self,
        service: u8,
        packet: &[u8],
        locator: usize,
        advertised: &Advertisement,
        out: &mut [u8],
    ) -> Result<usize, Refusal> {
        self.services.get(service)?.advertise(packet, locator, advertised, out)
    }

    /// The size in force for the service toward the neighbour, at the latest time; 11.
    pub fn path_size(&self, service: u8, neighbour: u32) -> Result<u16, Refusal> {
        Ok(self.services.get(service)?.path_size(&self.paths, neighbour, self.latest))
    }

    pub fn service(&self, number: u8) -> Option<&Service> {
        self.services.get(number).ok()
    }

    pub fn service_mut(&mut self, number: u8) -> Option<&mut Service> {
        self.services.get_mut(number).ok()
    }

    pub fn reports(&self) -> &[Report] {
        self.paths.as_slice()
    }

    pub fn latest(&self) -> u32 {
        self.latest
    }

    fn raise(&mut self, time: u32) {
        self.latest = self.latest.max(time);
    }
}

/// The quoted header of a size report and what follows it; 16.
fn quoted_header(message: &[u8]) -> Result<&[u8], Refusal> {
    if message.len() < 28 || message[..2] != [3, 4] || !rules::checksum_right(message) {
        return Err(Refusal::NoReport);
    }
    let quote = &message[8..];
    let header = usize::from(quote[0] & 0xf) * 4;
    if quote[0] >> 4 != 4 || header < OUTER_HEADER || header > quote.len() {
        return Err(Refusal::NoReport);
    }
    Ok(quote)
}

/// The largest plateau of RFC 1191 below the length.
fn plateau_below(length: u16) -> Option<u16> {
    PLATEAUS.into_iter().find(|&plateau| plateau < length)
}
