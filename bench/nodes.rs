//! A node of the library beside two of plain Rust, the simple one of tests/boundary and the best one. Each call is made on all three; answers,
//! next states and outputs must be the same.

use crate::best;
use crate::check::{same, Check};
use crate::plain::{self, Address, Settings};
use crate::two_nodes;
use bogtrumpet::raw;
use std::fmt::Debug;
use std::ops::{Deref, DerefMut};

pub use crate::two_nodes::{defaults, number, plain_advertisement};

#[derive(Clone)]
pub struct Nodes {
    /// The library's and the simple one.
    two: two_nodes::Nodes,
    pub best: best::Node,
}

impl Deref for Nodes {
    type Target = two_nodes::Nodes;

    fn deref(&self) -> &two_nodes::Nodes {
        &self.two
    }
}

impl DerefMut for Nodes {
    fn deref_mut(&mut self) -> &mut two_nodes::Nodes {
        &mut self.two
    }
}

/// Both answers, and the bytes that were lent to be written, are the same.
fn same_answer<A: PartialEq + Debug>(call: &str, plain: (A, Vec<u8>), best: (A, Vec<u8>)) {
    same("best answer", &plain.0, &best.0, &|| call.into());
    same("best output", &true, &(plain.1 == best.1), &|| call.into());
}

impl Nodes {
    /// Nodes of one service with these settings, or `None` where all refuse them.
    pub fn new(check: &mut Check, settings: &Settings) -> Option<Nodes> {
        let two = two_nodes::Nodes::new(check, settings);
        Nodes::made(two, best::Node::new(settings), "new")
    }

    /// The same of two services.
    pub fn pair(check: &mut Check, first: &Settings, second: &Settings) -> Option<Nodes> {
        let two = two_nodes::Nodes::pair(check, first, second);
        Nodes::made(two, best::Node::new_pair(first, second), "new_pair")
    }

    fn made(two: Option<two_nodes::Nodes>, best: Result<best::Node, plain::Refusal>, call: &str) -> Option<Nodes> {
        same("best number", &u8::from(two.is_none()), &number(&best), &|| call.into());
        let nodes = Nodes { two: two?, best: best.ok()? };
        nodes.same_state(call);
        Some(nodes)
    }

    /// Sets a place of the first service back to what it was at the start.
    pub fn set_back(&mut self, start: &Nodes, place: usize) {
        self.two.library.first.pieces.places[place] = start.two.library.first.pieces.places[place];
        if let (Some(service), Some(start)) = (self.two.plain.service_mut(0), start.two.plain.service(0)) {
            service.places_mut()[place] = start.places()[place];
        }
        self.best.set_back(&start.best, place);
    }

    /// Every field that a later call can read.
    fn same_state(&self, call: &str) {
        same("best state", &None, &self.best.difference(&self.two.plain), &|| call.into());
    }

    /// Makes a call on the best node, and on a copy of the simple one, each with its copy of the bytes.
    fn both<A: PartialEq + Debug>(
        &mut self,
        call: &str,
        bytes: &[u8],
        plain: impl FnOnce(&mut plain::Node, &mut [u8]) -> A,
        best: impl FnOnce(&mut best::Node, &mut [u8]) -> A,
    ) {
        let (mut expected, mut given) = (bytes.to_vec(), bytes.to_vec());
        let expected = (plain(&mut self.two.plain.clone(), &mut expected), expected);
        let given = (best(&mut self.best, &mut given), given);
        same_answer(call, expected, given);
    }

    pub fn receive(&mut self, check: &mut Check, datagram: &[u8], interface: u8, time: u32) -> Result<Vec<u8>, u8> {
        self.receive_in(check, datagram, interface, time, self.two.memory().len())
    }

    pub fn receive_in(
        &mut self,
        check: &mut Check,
        datagram: &[u8],
        interface: u8,
        time: u32,
        room: usize,
    ) -> Result<Vec<u8>, u8> {
        let (service, memory) = (self.two.service, self.two.memory()[..room].to_vec());
        self.both(
            "receive",
            &memory,
            |node, memory| node.receive(service, datagram, interface, time, memory),
            |node, memory| node.receive(service, datagram, interface, time, memory),
        );
        let answer = self.two.receive_in(check, datagram, interface, time, room);
        self.same_state("receive");
        answer
    }

    pub fn send(
        &mut self,
        check: &mut Check,
        packet: &[u8],
        next_hop: Address,
        locator: usize,
        time: u32,
        room: usize,
    ) -> u8 {
        let (service, out) = (self.two.service, check.pattern(room));
        self.both(
            "send",
            &out,
            |node, out| node.send(service, packet, &next_hop, locator, time, out),
            |node, out| node.send(service, packet, &next_hop, locator, time, out),
        );
        let answer = self.two.send(check, packet, next_hop, locator, time, room);
        self.same_state("send");
        answer
    }

    pub fn report(&mut self, check: &mut Check, message: &[u8], time: u32) -> u8 {
        self.both("report", &[], |node, _| node.report(message, time), |node, _| node.report(message, time));
        let answer = self.two.report(check, message, time);
        self.same_state("report");
        answer
    }

    pub fn replace_routers(&mut self, check: &mut Check, routers: &[u32], time: u32) -> u8 {
        let service = self.two.service;
        self.both(
            "replace_routers",
            &[],
            |node, _| node.replace_routers(service, routers, time),
            |node, _| node.replace_routers(service, routers, time),
        );
        let answer = self.two.replace_routers(check, routers, time);
        self.same_state("replace_routers");
        answer
    }

    pub fn ask(&mut self, check: &mut Check, locator: usize, time: u32, room: usize) -> u8 {
        let (service, out) = (self.two.service, check.pattern(room));
        self.both(
            "ask",
            &out,
            |node, out| node.ask(service, locator, time, out),
            |node, out| node.ask(service, locator, time, out),
        );
        let answer = self.two.ask(check, locator, time, room);
        self.same_state("ask");
        answer
    }

    pub fn hear(&mut self, check: &mut Check, packet: &[u8], time: u32) -> u8 {
        let service = self.two.service;
        self.both("hear", &[], |node, _| node.hear(service, packet, time), |node, _| node.hear(service, packet, time));
        let answer = self.two.hear(check, packet, time);
        self.same_state("hear");
        answer
    }

    pub fn advertise(
        &mut self,
        check: &mut Check,
        packet: &[u8],
        locator: usize,
        advertised: &raw::Advertisement,
        room: usize,
    ) -> Result<Vec<u8>, u8> {
        let (service, out) = (self.two.service, check.pattern(room));
        let operators = plain_advertisement(advertised);
        self.both(
            "advertise",
            &out,
            |node, out| node.advertise(service, packet, locator, &operators, out),
            |node, out| node.advertise(service, packet, locator, &operators, out),
        );
        self.two.advertise(check, packet, locator, advertised, room)
    }

    pub fn path_size(&mut self, check: &mut Check, neighbour: u32) -> Result<u16, u8> {
        let service = self.two.service;
        self.both(
            "path_size",
            &[],
            |node, _| node.path_size(service, neighbour),
            |node, _| node.path_size(service, neighbour),
        );
        self.two.path_size(check, neighbour)
    }
}
