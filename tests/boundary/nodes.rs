//! A node of the library beside one of plain Rust. Each call is made on both; answers, next states and outputs must be the same, and the
//! service that a call does not name stays as it was.

use crate::check::{hex, same, same_input, same_node, Check};
use crate::packets::{is_extended, is_piece};
use crate::plain::pieces::{Key, Place, MEMORY};
use crate::plain::rules::{address_at, no_host, u16_at, u32_at, Preference, Prefix, Route};
use crate::plain::{self, Address, Refusal};
use crate::totals::{Call, ABSENT, CHAIN_SHORT, CHAIN_SILENT, CHAIN_TOLD, IGNORED, JOINED, TOO_BIG_SILENT};
use crate::totals::{BY_FIRST, BY_SECOND, LOWERS_OTHER, NINE_LIVE, NOT_BELOW_OWN};
use bogtrumpet::raw::{self, Advertised, Asked, Heard, PathSize, Received, Reported, Sent};

#[derive(Clone)]
pub struct Nodes {
    pub library: raw::Node,
    pub plain: plain::Node,
    /// What receiving of each service is lent, as both left it.
    memories: [Vec<u8>; 2],
    /// The service that calls name.
    pub service: u8,
}

/// The number of an answer, 0 where it is no refusal.
pub fn number<T>(answer: &Result<T, Refusal>) -> u8 {
    answer.as_ref().map_or_else(|&refusal| refusal as u8, |_| 0)
}

/// The settings as the boundary has them.
pub fn boundary_settings(settings: &plain::Settings) -> raw::Settings {
    let mut prefixes = [0; 64];
    prefixes.copy_from_slice(settings.prefixes.as_flattened());
    raw::Settings {
        locators: settings
            .locators
            .map(|locator| raw::Locator { address: locator.address, interface: locator.interface }),
        locator_count: settings.locator_count,
        prefixes,
        prefix_count: settings.prefix_count,
        routers: settings.routers,
        router_count: settings.router_count,
        link_size: settings.link_size,
        ttl: settings.ttl,
        interval: settings.interval,
        identification: settings.identification,
        reporting: settings.reporting,
    }
}

/// The place of a datagram as the boundary has it.
fn boundary_place(place: &Place) -> raw::Place {
    let Key { source, destination, identification, protocol } = place.key;
    raw::Place {
        held: place.held,
        key: raw::Key { source, destination, identification, protocol },
        first: place.first,
        end: place.end,
        reach: place.reach,
        used: place.used.into(),
    }
}

/// The service of that number, 0 or 1, as the boundary has it.
pub fn boundary_service(node: &mut raw::Node, number: u8) -> &mut raw::Service {
    match number {
        0 => &mut node.first,
        _ => &mut node.second,
    }
}

/// Whether receiving that gave the number may have changed what is collected, and whether it may have written into the memory.
pub fn may_change(datagram: &[u8], number: u8) -> (bool, bool) {
    let collects = is_piece(datagram) && matches!(number, 0 | 8 | 9 | 10 | 27 | 29);
    (collects, collects && number != 29)
}

/// The preferences of a route; any other byte is medium.
pub const HIGH: u8 = 1;
pub const LOW: u8 = 2;

/// The operator's advertisement as plain Rust has it: any byte but 0 sets a flag.
pub fn plain_advertisement(given: &raw::Advertisement) -> plain::Advertisement {
    plain::Advertisement {
        managed: given.managed != 0,
        other: given.other != 0,
        lifetime: given.lifetime,
        prefixes: given.prefixes.map(|prefix| Prefix {
            bytes: prefix.bytes,
            length: prefix.length,
            on_link: prefix.on_link != 0,
            autonomous: prefix.autonomous != 0,
            valid: prefix.valid,
            preferred: prefix.preferred,
        }),
        prefix_count: given.prefix_count,
        routes: given.routes.map(|route| Route {
            bytes: route.bytes,
            length: route.length,
            preference: match route.preference {
                HIGH => Preference::High,
                LOW => Preference::Low,
                _ => Preference::Medium,
            },
            lifetime: route.lifetime,
        }),
        route_count: given.route_count,
    }
}

pub fn defaults(check: &mut Check, settings: &plain::Settings) {
    let library = boundary_settings(settings).defaults();
    let call = || format!("defaults {settings:?}");
    same("settings", &boundary_settings(&settings.defaults()), &library, &call);
    check.totals.count(Call::Defaults, 0);
}

impl Nodes {
    /// Nodes of one service with these settings, or `None` where both refuse them.
    pub fn new(check: &mut Check, settings: &plain::Settings) -> Option<Nodes> {
        let call = || format!("new {settings:?}");
        let set_up = |node: &mut raw::Node| node.set_up(boundary_settings(settings));
        Nodes::made(check, Call::New, plain::Node::new(settings), set_up, &call)
    }

    /// The same of two services.
    pub fn pair(check: &mut Check, first: &plain::Settings, second: &plain::Settings) -> Option<Nodes> {
        let call = || format!("new_pair {first:?} {second:?}");
        let set_up = |node: &mut raw::Node| node.set_up_pair(boundary_settings(first), boundary_settings(second));
        Nodes::made(check, Call::NewPair, plain::Node::new_pair(first, second), set_up, &call)
    }

    /// The library's node is made where another one stood.
    fn made(
        check: &mut Check,
        kind: Call,
        plain: Result<plain::Node, Refusal>,
        set_up: impl Fn(&mut raw::Node) -> u8,
        call: &dyn Fn() -> String,
    ) -> Option<Nodes> {
        let mut stood = raw::Node { both: check.random.next() as u8, ..raw::Node::EMPTY };
        stood.first.settings.locators[3].address = check.random.next() as u32;
        stood.second.identification = check.random.next() as u16;
        (stood.paths.sizes, stood.latest) = ([7; 64], check.random.next() as u32);
        let (_, node) = check.lend_node(&stood, &[], 0);
        let given = set_up(node);
        let library = *node;
        same("number", &number(&plain), &given, call);
        check.totals.count(kind, given.into());
        let Ok(plain) = plain else {
            same("node of refused settings", &raw::Node::EMPTY, &library, call);
            return None;
        };
        let surplus = check.random.one_of(&[0, 0, 1, 9000]);
        let memories = [check.pattern(MEMORY + surplus), check.pattern(MEMORY + surplus)];
        let nodes = Nodes { library, plain, memories, service: 0 };
        nodes.same_state(call);
        Some(nodes)
    }

    /// The same nodes, whose calls name that service from now on.
    pub fn through(&mut self, service: u8) -> &mut Nodes {
        self.service = service;
        self
    }

    /// The service that calls name; the first, where the node has none such.
    pub fn named(&self) -> &plain::Service {
        self.plain.service(self.service).or(self.plain.service(0)).expect("every node has a first service")
    }

    /// What receiving of the named service is lent.
    pub fn memory(&self) -> &Vec<u8> {
        &self.memories[usize::from(self.service.min(1))]
    }

    pub fn memory_mut(&mut self) -> &mut Vec<u8> {
        &mut self.memories[usize::from(self.service.min(1))]
    }

    /// What a call that gave the number is counted as.
    fn answer(&self, number: u8) -> usize {
        if self.plain.service(self.service).is_some() {
            number.into()
        } else {
            ABSENT
        }
    }

    /// Receiving with all of the memory: the packet that is delivered, or the number.
    pub fn receive(&mut self, check: &mut Check, datagram: &[u8], interface: u8, time: u32) -> Result<Vec<u8>, u8> {
        self.receive_in(check, datagram, interface, time, self.memory().len())
    }

    /// Receiving with so many bytes of the memory.
    pub fn receive_in(
        &mut self,
        check: &mut Check,
        datagram: &[u8],
        interface: u8,
        time: u32,
        room: usize,
    ) -> Result<Vec<u8>, u8> {
        let before = self.state_before();
        let service = self.service;
        let (loan, node) = check.lend_memory(&self.library, datagram, &self.memory()[..room]);
        let library = node.receive(service, loan.input, interface, time, loan.library);
        let plain = self.plain.receive(service, datagram, interface, time, loan.plain);
        let call = || format!("receive {} interface {interface} time {time} memory {room}, {before}", hex(datagram));
        let (joined, part) = match plain.clone() {
            Ok(plain::Received::Whole(part)) => (false, part),
            Ok(plain::Received::Joined(part)) => (true, part),
            Err(_) => (false, 0..0),
        };
        let (number, offset, length) = (number(&plain), part.start, part.len());
        same("answer", &Received { number, joined, offset, length }, &library, &call);
        loan.same_output(datagram, &call);
        let packet = if joined { loan.library[part].to_vec() } else { loan.input[part].to_vec() };
        let collected = before.node.service(service) != self.plain.service(service);
        let written = self.memory()[..room] != *loan.library;
        let (collects, writes) = may_change(datagram, number);
        same("collection changed", &false, &(collected && !collects), &call);
        same("memory changed", &false, &(written && !writes), &call);
        self.memory_mut()[..room].copy_from_slice(loan.library);
        self.next_collected(collected, *node, time, &call);
        let answer = match number {
            0 if joined => JOINED,
            27 if !collected => IGNORED,
            _ => self.answer(number),
        };
        check.totals.count(if is_piece(datagram) { Call::Piece } else { Call::Receive }, answer);
        self.count_live(check);
        plain.map(|_| packet).map_err(|refusal| refusal as u8)
    }

    pub fn send(
        &mut self,
        check: &mut Check,
        packet: &[u8],
        next_hop: Address,
        locator: usize,
        time: u32,
        room: usize,
    ) -> u8 {
        let before = self.state_before();
        let (loan, node) = check.lend_node(&self.library, packet, room);
        let hop = raw::Address { bytes: next_hop };
        let library = node.send(self.service, loan.input, hop, locator, time, loan.library);
        let plain = self.plain.send(self.service, packet, &next_hop, locator, time, loan.plain);
        let call = || {
            let arguments = format!("to {} locator {locator} time {time} room {room}", hex(&next_hop));
            format!("send {} {arguments}, {before}", hex(packet))
        };
        let none = Sent { number: number(&plain), size: 0, length: 0, message_length: 0 };
        let expected = match plain {
            Ok(plain::Sent::Wrapped { length }) => Sent { length, ..none },
            Ok(plain::Sent::TooBig { size, length }) => Sent { number: 14, size, message_length: length, ..none },
            Err(_) => none,
        };
        same("answer", &expected, &library, &call);
        loan.same_output(packet, &call);
        self.next(library.number, *node, time, &call);
        check.totals.count(Call::Send, self.counted(packet, &next_hop, &library));
        library.number
    }

    /// Counts eight datagrams live in one collection, and one or more in the other.
    fn count_live(&self, check: &mut Check) {
        let is_live = |place: &&Place| place.is_live(self.plain.latest());
        let live = [0, 1].map(|service| {
            self.plain.service(service).map_or(0, |service| service.places().iter().filter(is_live).count())
        });
        if live.contains(&8) && !live.contains(&0) {
            check.totals.met(Call::Two, NINE_LIVE);
        }
    }

    /// The size in force toward the neighbour for the named service; for the first, where the node has none such.
    pub fn size(&self, neighbour: u32) -> u16 {
        let size = self.plain.path_size(self.service, neighbour).or_else(|_| self.plain.path_size(0, neighbour));
        size.expect("every node has a first service")
    }

    /// The largest packet that passes to the tunnel end.
    pub fn limit(&self, end: u32) -> usize {
        usize::from(self.size(end)).saturating_sub(20).max(1280)
    }

    /// What sending is counted as. 15 in the place of 14 is told by the packet's length.
    fn counted(&self, packet: &[u8], next_hop: &Address, sent: &Sent) -> usize {
        let chain = is_extended(packet) && !no_host(&address_at(packet, 8));
        match (sent.number, sent.message_length) {
            (14, 0) if chain => CHAIN_SILENT,
            (14, 0) => TOO_BIG_SILENT,
            (14, _) if chain => CHAIN_TOLD,
            (15, _) if chain && packet.len() > self.limit(u32_at(next_hop, 12)) => CHAIN_SHORT,
            (number, _) => self.answer(number),
        }
    }

    pub fn report(&mut self, check: &mut Check, message: &[u8], time: u32) -> u8 {
        let before = self.state_before();
        let (loan, node) = check.lend_node(&self.library, message, 0);
        let library = node.report(loan.input, time);
        let plain = self.plain.report(message, time);
        let call = || format!("report {} time {time}, {before}", hex(message));
        let (neighbour, size) = plain.unwrap_or((0, 0));
        same("answer", &Reported { number: number(&plain), neighbour, size }, &library, &call);
        same_input(message, loan.input, &call);
        self.next(library.number, *node, time, &call);
        check.totals.count(Call::Report, library.number.into());
        self.count_between(check, &before.node, message, library.number);
        library.number
    }

    /// Counts what a report came to on a node of two services: whose it was, whether it lowered the size of the other, and whether it would
    /// have been below the size of the other alone.
    fn count_between(&self, check: &mut Check, before: &plain::Node, message: &[u8], number: u8) {
        if self.plain.service(1).is_none() || !matches!(number, 0 | 19) {
            return;
        }
        let (size, source, neighbour) = (u16_at(message, 6), u32_at(message, 20), u32_at(message, 24));
        let (own, other) = if self.owner(source) == Some(0) { (0, 1) } else { (1, 0) };
        // The other's size at the report's time, without the report.
        let was = before.path_size(other, neighbour).unwrap_or(0);
        let is = self.plain.path_size(other, neighbour).unwrap_or(0);
        if number == 19 && size != 0 && size < is {
            check.totals.met(Call::Two, NOT_BELOW_OWN);
        }
        if number == 0 {
            check.totals.met(Call::Two, [BY_FIRST, BY_SECOND][own]);
            if is < was {
                check.totals.met(Call::Two, LOWERS_OTHER);
            }
        }
    }

    /// The service that has a locator of the address.
    pub fn owner(&self, address: u32) -> Option<u8> {
        (0..2).find(|&service| self.plain.service(service).is_some_and(|service| service.settings().is_own(address)))
    }

    /// More than 16 routers are a list whose count is too large, by one or by far.
    pub fn replace_routers(&mut self, check: &mut Check, routers: &[u32], time: u32) -> u8 {
        let before = self.state_before();
        let mut list = raw::Addresses { routers: [0; 16], count: routers.len() };
        // What stands behind the count is not read.
        for (place, router) in list.routers.iter_mut().enumerate() {
            let unread = [0, u32::MAX, self.named().settings().locators[0].address];
            *router = routers.get(place).copied().unwrap_or_else(|| check.random.one_of(&unread));
        }
        if routers.len() > list.routers.len() {
            list.count = check.random.one_of(&[routers.len(), 1 << 32, usize::MAX]);
        }
        let (_, node) = check.lend_node(&self.library, &[], 0);
        let library = node.replace_routers(self.service, list, time);
        let after = *node;
        let plain = self.plain.replace_routers(self.service, routers, time);
        let call = || format!("replace_routers {routers:?} time {time}, {before}");
        same("number", &number(&plain), &library, &call);
        self.next(library, after, time, &call);
        check.totals.count(Call::Replace, self.answer(library));
        library
    }

    pub fn ask(&mut self, check: &mut Check, locator: usize, time: u32, room: usize) -> u8 {
        let before = self.state_before();
        let (loan, node) = check.lend_node(&self.library, &[], room);
        let library = node.ask(self.service, locator, time, loan.library);
        let plain = self.plain.ask(self.service, locator, time, loan.plain);
        let call = || format!("ask locator {locator} time {time} room {room}, {before}");
        same("answer", &Asked { number: number(&plain), router: plain.unwrap_or(0) }, &library, &call);
        loan.same_output(&[], &call);
        self.next(library.number, *node, time, &call);
        check.totals.count(Call::Ask, self.answer(library.number));
        library.number
    }

    pub fn hear(&mut self, check: &mut Check, packet: &[u8], time: u32) -> u8 {
        let before = self.state_before();
        let (loan, node) = check.lend_node(&self.library, packet, 0);
        let library = node.hear(self.service, loan.input, time);
        let plain = self.plain.hear(self.service, packet, time);
        let call = || format!("hear {} time {time}, {before}", hex(packet));
        same("answer", &Heard { number: number(&plain), router: plain.unwrap_or(0) }, &library, &call);
        same_input(packet, loan.input, &call);
        self.next(library.number, *node, time, &call);
        check.totals.count(Call::Hear, self.answer(library.number));
        library.number
    }

    /// What was written, or the number.
    pub fn advertise(
        &self,
        check: &mut Check,
        packet: &[u8],
        locator: usize,
        advertised: &raw::Advertisement,
        room: usize,
    ) -> Result<Vec<u8>, u8> {
        let (loan, node) = check.lend_node(&self.library, packet, room);
        let library = node.advertise(self.service, loan.input, locator, *advertised, loan.library);
        let plain = self.plain.advertise(self.service, packet, locator, &plain_advertisement(advertised), loan.plain);
        let call = || {
            let arguments = format!("locator {locator} {advertised:?} room {room}");
            format!("advertise {} {arguments}, {}", hex(packet), self.state())
        };
        let expected = Advertised { number: number(&plain), length: plain.unwrap_or(0) };
        same("answer", &expected, &library, &call);
        loan.same_output(packet, &call);
        same_node(&self.library, node, &call);
        let written = loan.library[..library.length].to_vec();
        check.totals.count(Call::Advertise, self.answer(library.number));
        plain.map(|_| written).map_err(|refusal| refusal as u8)
    }

    /// The size in force, or the number.
    pub fn path_size(&self, check: &mut Check, neighbour: u32) -> Result<u16, u8> {
        let (_, node) = check.lend_node(&self.library, &[], 0);
        let library = node.path_size(self.service, neighbour);
        let plain = self.plain.path_size(self.service, neighbour);
        let call = || format!("path_size {neighbour:#x}, {}", self.state());
        same("answer", &PathSize { number: number(&plain), size: plain.unwrap_or(0) }, &library, &call);
        same_node(&self.library, node, &call);
        let reported = plain.is_ok_and(|size| size != self.named().settings().link_size);
        check.totals.count(Call::PathSize, self.answer(reported.into()));
        plain.map_err(|refusal| refusal as u8)
    }

    /// Takes the next state over and compares it.
    fn next(&mut self, number: u8, node: raw::Node, time: u32, call: &dyn Fn() -> String) {
        if number != 0 {
            let raised = raw::Node { latest: self.library.latest.max(time), ..self.library };
            same("node after a refusal", &raised, &node, call);
        }
        self.library = node;
        self.same_state(call);
    }

    /// The same of receiving, which changes the latest time and what the named service collects alone.
    fn next_collected(&mut self, collected: bool, mut node: raw::Node, time: u32, call: &dyn Fn() -> String) {
        let mut kept = raw::Node { latest: self.library.latest.max(time), ..self.library };
        if collected {
            boundary_service(&mut kept, self.service).pieces = boundary_service(&mut node, self.service).pieces;
        }
        same("node but for what is collected", &kept, &node, call);
        self.library = node;
        self.same_state(call);
    }

    /// Every field that a later call can read: entries behind a list's count are not among them.
    fn same_state(&self, call: &dyn Fn() -> String) {
        let (plain, library) = (&self.plain, &self.library);
        same_service("first", plain.service(0), &library.first, call);
        same_service("second", plain.service(1), &library.second, call);
        same("two services", &plain.service(1).is_some(), &(library.both != 0), call);
        same("latest time", &plain.latest(), &library.latest, call);
        let paths = &library.paths;
        same("count of paths", &plain.reports().len(), &paths.count, call);
        for (place, report) in plain.reports().iter().enumerate() {
            let given = (paths.neighbours[place], paths.sizes[place], paths.times[place]);
            if given != (report.neighbour, report.size, report.time) {
                same(&format!("path {place}"), &(report.neighbour, report.size, report.time), &given, call);
            }
        }
    }

    fn state(&self) -> String {
        format!("service {} on {:?}", self.service, self.plain)
    }

    /// The state and the named service for a report of a difference, put into words only then.
    fn state_before(&self) -> Before {
        Before { node: self.plain, service: self.service }
    }
}

struct Before {
    node: plain::Node,
    service: u8,
}

impl std::fmt::Display for Before {
    fn fmt(&self, f: &mut std::fmt::Formatter<'_>) -> std::fmt::Result {
        write!(f, "service {} on {:?}", self.service, self.node)
    }
}

/// A service that the node has not is one of empty settings.
fn same_service(name: &str, plain: Option<&plain::Service>, library: &raw::Service, call: &dyn Fn() -> String) {
    let Some(plain) = plain else {
        return same(&format!("{name} service"), &raw::Service::EMPTY, library, call);
    };
    same(&format!("{name} settings"), &boundary_settings(plain.settings()), &library.settings, call);
    same(&format!("{name} identification"), &plain.identification(), &library.identification, call);
    same(&format!("{name} count of routers"), &plain.routers().len(), &library.routers.count, call);
    for (place, router) in plain.routers().iter().enumerate() {
        let given = (library.routers.addresses[place], library.routers.dues[place]);
        if given != (router.address, router.due) {
            same(&format!("{name} router {place}"), &(router.address, router.due), &given, call);
        }
    }
    for (number, (place, given)) in plain.places().iter().zip(&library.pieces.places).enumerate() {
        // What a free place has is not read.
        let differs = if place.used { boundary_place(place) != *given } else { given.used != 0 };
        if differs {
            same(&format!("{name} place {number}"), &boundary_place(place), given, call);
        }
    }
}
