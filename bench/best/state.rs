//! A node's state beside that of the simple plain Rust, and what the benchmark sets back.

use super::address::word;
use super::bytes::word_of;
use super::pieces::{Place, LIFETIME};
use super::service::Service;
use super::Node;
use crate::plain;
use crate::plain::pieces::Key;

impl Node {
    /// What differs from that node of all that a later call can read, or nothing.
    pub fn difference(&self, plain: &plain::Node) -> Option<&'static str> {
        let reports = self.paths.reports().map(|(neighbour, size, time)| (word(neighbour), size, time));
        let expected = plain.reports().iter().map(|report| (report.neighbour, report.size, report.time));
        if !reports.eq(expected) {
            return Some("reports");
        }
        if self.latest != plain.latest() {
            return Some("latest time");
        }
        let services = [(Some(&self.first), plain.service(0)), (self.second.as_ref(), plain.service(1))];
        services.into_iter().find_map(|services| match services {
            (Some(service), Some(plain)) => service.difference(plain),
            (None, None) => None,
            _ => Some("services"),
        })
    }

    /// Sets a place of the first service back to what it was at the start.
    pub fn set_back(&mut self, start: &Node, place: usize) {
        self.first.pieces.places[place] = start.first.pieces.places[place];
    }
}

impl Service {
    fn difference(&self, plain: &plain::Service) -> Option<&'static str> {
        let routers = self.routers.entries().map(|(address, due)| (word(address), due));
        if !routers.eq(plain.routers().iter().map(|router| (router.address, router.due))) {
            return Some("routers");
        }
        if self.identification != plain.identification() {
            return Some("identification");
        }
        let same = self.pieces.places.iter().zip(plain.places()).all(|(place, plain)| place.is_as(plain));
        (!same).then_some("what is collected")
    }
}

impl Place {
    /// What a free place has is not read.
    fn is_as(&self, plain: &plain::pieces::Place) -> bool {
        let Key { source, destination, identification, .. } = plain.key;
        let free = self.until == 0 && !plain.used;
        free || plain.used
            && self.until == u64::from(plain.first) + LIFETIME
            && self.ends == word_of(word(source), word(destination))
            && self.identification == identification.swap_bytes()
            && (self.end, self.reach, self.held) == (plain.end, plain.reach, plain.held)
    }
}
