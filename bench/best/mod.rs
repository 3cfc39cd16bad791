//! One tunnel end, or two in one box, in the best plain Rust that was found, std alone and no unsafe: what the library is measured against. It is
//! written from the rules (docs/RULES.md) alone, as tests/boundary/plain.rs is, which says the same in a simpler way; settings, answers and
//! refusals have its types.
//!
//! What makes it fast: path sizes are found by hashing; of a header every word is read once, and summed from there; what is the same in
//! all headers that a service writes is made and summed at setup; checksums of long bytes have sixteen lanes; addresses are compared as
//! numbers, locators and prefixes in arrays of fixed length.

// From what needs nothing to what needs all.
mod bytes;
mod sum;

mod address;
mod chain;
mod comparing;
mod inner;
mod messages;
mod outer;
mod piece;

mod advertising;
mod locators;
mod paths;
mod pieces;
mod routers;
mod service;

mod receiving;
mod reporting;
mod routing;
mod sending;

mod state;

pub use comparing::compare;
pub use outer::wrap;
pub use sum::checksum;

use crate::plain::{Address, Advertisement, Refusal, Sent, Settings};
use address::word;
use paths::Paths;
use service::Service;

/// A node of one service or of two. Every call but a report names its service; one that the node has not gives 11, before all else. A call is a
/// function of its own, as one of the library is.
#[derive(Clone, Copy, Debug, PartialEq, Eq)]
pub struct Node {
    first: Service,
    second: Option<Service>,
    paths: Paths,
    latest: u32,
}

impl Node {
    /// A node of one service with these settings; 1.
    #[inline(never)]
    pub fn new(settings: &Settings) -> Result<Node, Refusal> {
        let first = Service::new(settings).ok_or(Refusal::Settings)?;
        Ok(Node { first, second: None, paths: Paths::EMPTY, latest: 0 })
    }

    /// A node of two services with these settings; 1.
    #[inline(never)]
    pub fn new_pair(first: &Settings, second: &Settings) -> Result<Node, Refusal> {
        let first = Service::new(first).ok_or(Refusal::Settings)?;
        let second = Service::new(second).ok_or(Refusal::Settings)?;
        if !first.locators.is_apart(&second.locators) {
            return Err(Refusal::Settings);
        }
        Ok(Node { first, second: Some(second), paths: Paths::EMPTY, latest: 0 })
    }

    #[inline(never)]
    pub fn send(
        &mut self,
        service: u8,
        packet: &[u8],
        next_hop: &Address,
        locator: usize,
        time: u32,
        out: &mut [u8],
    ) -> Result<Sent, Refusal> {
        let now = self.raise(time);
        let (service, paths) = self.named_and_paths(service)?;
        service.send(packet, next_hop, locator, paths, now, out)
    }

    #[inline(never)]
    pub fn replace_routers(&mut self, service: u8, routers: &[u32], time: u32) -> Result<(), Refusal> {
        let now = self.raise(time);
        self.named_mut(service)?.replace_routers(routers, now)
    }

    #[inline(never)]
    pub fn ask(&mut self, service: u8, locator: usize, time: u32, out: &mut [u8]) -> Result<u32, Refusal> {
        let now = self.raise(time);
        self.named_mut(service)?.ask(locator, now, out)
    }

    #[inline(never)]
    pub fn hear(&mut self, service: u8, packet: &[u8], time: u32) -> Result<u32, Refusal> {
        let now = self.raise(time);
        self.named_mut(service)?.hear(packet, now)
    }

    #[inline(never)]
    pub fn advertise(
        &self,
        service: u8,
        packet: &[u8],
        locator: usize,
        advertised: &Advertisement,
        out: &mut [u8],
    ) -> Result<usize, Refusal> {
        self.named(service)?.advertise(packet, locator, advertised, out)
    }

    /// The size in force for the service toward the neighbour, at the latest time; 11.
    #[inline(never)]
    pub fn path_size(&self, service: u8, neighbour: u32) -> Result<u16, Refusal> {
        let link_size = self.named(service)?.link_size;
        Ok(self.paths.size(self.paths.find(word(neighbour)), link_size, self.latest))
    }

    /// Raises the latest time, and gives it.
    #[inline(always)]
    fn raise(&mut self, time: u32) -> u32 {
        self.latest = self.latest.max(time);
        self.latest
    }

    /// The service of that number; 11.
    #[inline(always)]
    fn named(&self, number: u8) -> Result<&Service, Refusal> {
        match (number, &self.second) {
            (0, _) => Ok(&self.first),
            (1, Some(second)) => Ok(second),
            _ => Err(Refusal::NoSuchNumber),
        }
    }

    /// The service of that number; 11.
    #[inline(always)]
    fn named_mut(&mut self, number: u8) -> Result<&mut Service, Refusal> {
        self.named_and_paths(number).map(|(service, _)| service)
    }

    /// The same, with the sizes that are kept.
    #[inline(always)]
    fn named_and_paths(&mut self, number: u8) -> Result<(&mut Service, &Paths), Refusal> {
        match (number, &mut self.second) {
            (0, _) => Ok((&mut self.first, &self.paths)),
            (1, Some(second)) => Ok((second, &self.paths)),
            _ => Err(Refusal::NoSuchNumber),
        }
    }
}
