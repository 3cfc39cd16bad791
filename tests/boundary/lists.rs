//! Random lists of calls on one node, of one service or of two: mostly valid, often nearly so.

use crate::advertised;
use crate::check::Check;
use crate::nodes::{self, Nodes};
use crate::packets::{self, put, put16, put32, EDGES};
use crate::pieces::{self, Part};
use crate::plain::pieces::{Key, MEMORY};
use crate::plain::rules::link_local;
use crate::plain::{Address, Locator, Settings};
use crate::random::Random;
use crate::stateless;

const LINK_LOCAL: [u8; 8] = [0xfe, 0x80, 0, 0, 0, 0, 0, 0];
const PLATEAUS: [u16; 11] = [65535, 32000, 17914, 8166, 4352, 2002, 1492, 1006, 508, 296, 68];
const LINK_SIZES: [u16; 14] = [576, 577, 1279, 1280, 1299, 1300, 1301, 1302, 1492, 1500, 1501, 4352, 9215, 9216];

/// A node and those around it.
struct World {
    nodes: Nodes,
    /// A node that hears what this one advertises.
    hearer: Nodes,
    neighbours: Vec<u32>,
    routers: Vec<u32>,
    /// Pieces on their way to it.
    parts: Vec<Part>,
    /// Seconds that pass between two calls, at most.
    pace: usize,
}

impl World {
    /// The settings of the service that the next call names; of the first, where the node has none such.
    fn settings(&self) -> &Settings {
        self.nodes.named().settings()
    }

    fn services(&self) -> usize {
        (0..2).filter(|&service| self.nodes.plain.service(service).is_some()).count()
    }
}

/// Makes one node and about `calls` calls on it.
pub fn list(check: &mut Check, calls: usize) {
    let made = if check.random.once_in(3) { one_service(check) } else { two_services(check) };
    let Some((nodes, settings)) = made else { return };
    let hearer = advertised::hearer(check, &settings);
    let random = &mut check.random;
    let count = random.one_of(&[2, 10, 40, 63, 64, 65, 66, 80, 130]);
    let neighbours = (0..count).map(|i| 0x0a01_0000 + i as u32).collect();
    let routers =
        (0..20).map(|i| 0x0a02_0000 + i).chain(settings.iter().flat_map(|settings| settings.routers)).collect();
    let pace = random.one_of(&[0, 1, 1, 3, 10, 100, 700]);
    let mut world = World { nodes, hearer, neighbours, routers, parts: Vec::new(), pace };
    // A list has its own habits, so that tables fill in some and age in others.
    let mut weights = [0; 8];
    weights.iter_mut().for_each(|weight| *weight = random.one_of(&[1, 4, 16]));
    if random.once_in(6) {
        let start = random.one_of(&[u32::MAX - 3000, u32::MAX - 600, 1 << 31]);
        world.nodes.ask(check, 0, start, 48);
    }
    for _ in 0..calls {
        call(check, &mut world, &weights);
    }
    all_sizes(check, &mut world);
}

fn one_service(check: &mut Check) -> Option<(Nodes, Vec<Settings>)> {
    let settings = some_settings(check, 0);
    if check.random.once_in(2) {
        let mut broken = settings;
        break_settings(&mut check.random, &mut broken);
        Nodes::new(check, &broken);
    }
    Some((Nodes::new(check, &settings)?, vec![settings]))
}

/// Two, of which one may have a locator of the other for a router.
fn two_services(check: &mut Check) -> Option<(Nodes, Vec<Settings>)> {
    let mut pair = [some_settings(check, 0), some_settings(check, 1)];
    for (own, other) in [(0, 1), (1, 0)] {
        let random = &mut check.random;
        if pair[own].router_count > 0 && random.once_in(2) {
            let address = any_locator(random, &pair[other]).address;
            pair[own].routers[random.below(pair[own].router_count)] = address;
        }
    }
    if check.random.once_in(2) {
        let mut broken = pair;
        break_pair(&mut check.random, &mut broken);
        Nodes::pair(check, &broken[0], &broken[1]);
    }
    Some((Nodes::pair(check, &pair[0], &pair[1])?, pair.to_vec()))
}

/// The settings of a service, whose defaults both have.
fn some_settings(check: &mut Check, service: u32) -> Settings {
    let settings = settings(&mut check.random, service);
    nodes::defaults(check, &settings);
    if check.random.once_in(8) {
        settings.defaults()
    } else {
        settings
    }
}

/// Mostly a locator address that both have, on one interface or on two.
fn break_pair(random: &mut Random, pair: &mut [Settings; 2]) {
    let [own, other] = if random.once_in(2) { [0, 1] } else { [1, 0] };
    if random.once_in(3) {
        return break_settings(random, &mut pair[own]);
    }
    let shared = any_locator(random, &pair[other]);
    let place = random.below(pair[own].locator_count);
    pair[own].locators[place] = Locator { interface: random.one_of(&[shared.interface, 3, 254]), ..shared };
}

fn any_locator(random: &mut Random, settings: &Settings) -> Locator {
    settings.locators[random.below(settings.locator_count)]
}

/// The size in force toward every neighbour, of each service.
fn all_sizes(check: &mut Check, world: &mut World) {
    for service in 0..2 {
        world.nodes.service = service;
        for &neighbour in &world.neighbours {
            _ = world.nodes.path_size(check, neighbour);
        }
    }
}

/// The service that the next call names: mostly one that the node has.
fn service(random: &mut Random, world: &World) -> u8 {
    if random.once_in(30) {
        let any = random.next() as u8;
        random.one_of(&[1, 1, 2, 3, 128, 254, 255, any])
    } else {
        random.below(world.services()) as u8
    }
}

fn call(check: &mut Check, world: &mut World, weights: &[usize; 8]) {
    let mut choice = check.random.below(weights.iter().sum());
    let mut kind = 0;
    while choice >= weights[kind] {
        choice -= weights[kind];
        kind += 1;
    }
    world.nodes.service = service(&mut check.random, world);
    match kind {
        0 => receive(check, world),
        1 => send(check, world),
        2 => report(check, world),
        3 => replace(check, world),
        4 => ask(check, world),
        5 => hear(check, world),
        6 => advertise(check, world),
        _ => receive_piece(check, world),
    }
    let neighbour = any_address(&mut check.random, world);
    world.nodes.service = service(&mut check.random, world);
    _ = world.nodes.path_size(check, neighbour);
    if check.random.once_in(250) {
        all_sizes(check, world);
    }
}

/// Settings within the rules, of a service with locators of its own. What stands behind the counts would break them.
fn settings(random: &mut Random, service: u32) -> Settings {
    let mut settings = Settings {
        locator_count: random.between(1, 8),
        prefix_count: random.between(0, 8),
        router_count: random.between(0, 16),
        link_size: random.between(576, 9216) as u16,
        ttl: random.between(1, 255) as u8,
        interval: random.one_of(&[1, 2, 60, 120, 599, 600, 1800, 3599, 3600]),
        identification: random.one_of(&[0, 1, 65533, 65534, 65535, 300]),
        ..Settings::default()
    };
    if random.once_in(2) {
        settings.link_size = random.one_of(&LINK_SIZES);
    }
    for (place, locator) in settings.locators.iter_mut().enumerate() {
        // Two places have an address in common, on two interfaces.
        let address = 0x0a00_0000 + 16 * service + (place as u32 + 2) / 2;
        *locator = Locator { address, interface: place as u8 % 2 * 255 };
        if place >= settings.locator_count {
            locator.address = random.one_of(&EDGES);
        }
    }
    for (place, prefix) in settings.prefixes.iter_mut().enumerate() {
        *prefix = [0x20, 0x01, 0x0d, 0xb8, 0, 0, 0, place as u8];
        if random.once_in(4) {
            *prefix = random.bytes();
        }
    }
    for (place, router) in settings.routers.iter_mut().enumerate() {
        *router = if place < settings.router_count { 0x0a02_0000 + place as u32 * 3 } else { random.one_of(&EDGES) };
    }
    settings.reporting = reporting(random, settings.locators[0].address);
    settings
}

/// A reporting address: the default of the locator, the loopback address, or any other that is allowed.
fn reporting(random: &mut Random, locator: u32) -> Address {
    let mut any: Address = random.bytes();
    if any[0] == 0xff {
        any[0] = 0xfe;
    }
    random.one_of(&[link_local(locator), [0, 0, 0, 0, 0, 0, 0, 0, 0, 0, 0, 0, 0, 0, 0, 1], any, any])
}

/// Changes one thing, in most cases to what the rules refuse.
pub fn break_settings(random: &mut Random, settings: &mut Settings) {
    let many = random.one_of(&[9, 17, 255, 1 << 32, usize::MAX]);
    let locator = random.below(settings.locator_count);
    let router = random.below(settings.router_count.max(1));
    match random.below(16) {
        0 => settings.locator_count = 0,
        1 => settings.locator_count = many,
        2 => settings.prefix_count = many,
        3 => settings.router_count = many.max(17),
        4 => settings.locators[locator].address = random.one_of(&EDGES),
        5 => settings.locators[locator] = settings.locators[0],
        6 => settings.locators[locator].interface ^= random.one_of(&[255, 1]),
        7 => settings.routers[router] = random.one_of(&EDGES),
        8 => settings.routers[router] = settings.routers[0],
        9 => settings.routers[router] = settings.locators[locator].address,
        10 => settings.link_size = random.one_of(&[0, 575, 576, 9216, 9217, 65535]),
        11 => settings.ttl = random.one_of(&[0, 0, 1, 255]),
        12 => settings.interval = random.one_of(&[0, 1, 3600, 3601, 65535]),
        13 => settings.reporting = [0; 16],
        14 => settings.reporting[random.one_of(&[0, 0, 1, 15])] = 0xff,
        _ => settings.locator_count = random.between(1, 8),
    }
}

/// The time of the next call: a little later, at an edge of a report's age, of a router's due time or of a collected datagram's life, or
/// earlier.
fn time(random: &mut Random, world: &World) -> u32 {
    let latest = world.nodes.plain.latest();
    let reports = world.nodes.plain.reports();
    let routers = world.nodes.named().routers();
    match random.below(24) {
        0 => latest.wrapping_sub(random.one_of(&[1, 2, 600, 1 << 31])).min(latest),
        1 => random.one_of(&[0, latest]),
        2 if !reports.is_empty() => {
            let report = random.one_of(reports);
            later(latest, u64::from(report.time) + random.between(598, 601) as u64, 1200)
        }
        3 if !routers.is_empty() => {
            let due = random.one_of(routers).due;
            later(latest, (due + random.below(3) as u64).saturating_sub(1), 5000)
        }
        4 if random.once_in(400) => u32::MAX - random.below(3) as u32,
        6 => {
            let first = random.one_of(world.nodes.named().places()).first;
            later(latest, u64::from(first) + random.between(28, 31) as u64, 60)
        }
        5 if random.once_in(40) => latest.saturating_add(random.one_of(&[599, 600, 601, 3600])),
        _ => latest.saturating_add(random.between(0, world.pace) as u32),
    }
}

/// The time, if it is not much later than the latest.
fn later(latest: u32, time: u64, most: u64) -> u32 {
    let limit = u64::from(latest) + most;
    if time > limit {
        latest
    } else {
        time.min(u32::MAX.into()) as u32
    }
}

fn any_address(random: &mut Random, world: &World) -> u32 {
    match random.below(20) {
        0 => random.next() as u32,
        1 => random.one_of(&EDGES),
        2 => {
            // Of either service.
            let service = world.nodes.plain.service(random.below(2) as u8).unwrap_or(world.nodes.named());
            random.one_of(&service.settings().locators).address
        }
        3..=5 => random.one_of(&world.routers),
        _ => random.one_of(&world.neighbours),
    }
}

/// An ISATAP address that embeds the IPv4 address, in most cases.
fn embedding(random: &mut Random, settings: &Settings, embedded: u32) -> Address {
    let prefix = match random.below(12) {
        0..=5 => LINK_LOCAL,
        6..=10 if settings.prefix_count > 0 => settings.prefixes[random.below(settings.prefix_count)],
        _ => random.one_of(&settings.prefixes),
    };
    let mut address = packets::address(&prefix, random.one_of(&[0, 2]), embedded);
    match random.below(24) {
        0 => address[8] = random.one_of(&[1, 3, 0xfc, 0xfe, 0x82]),
        1 => address[random.between(8, 11)] ^= 1 << random.below(8),
        2 => address[random.below(8)] ^= 1 << random.below(8),
        3 => address = other_source(random),
        _ => (),
    }
    address
}

/// A source that is no ISATAP address: bad ones and their neighbours.
fn other_source(random: &mut Random) -> Address {
    let mut source = [0; 16];
    match random.below(6) {
        0 => source[15] = random.below(3) as u8,
        1 => put32(&mut source, 12, random.one_of(&EDGES)),
        2 => {
            put32(&mut source, 12, random.one_of(&EDGES));
            source[random.below(12)] = random.one_of(&[0, 1, 0x80]);
        }
        3 => {
            source = random.bytes();
            source[0] = random.one_of(&[0xff, 0xfe]);
        }
        4 => source = packets::address(&LINK_LOCAL, 0, random.next() as u32),
        _ => source = random.bytes(),
    }
    source
}

/// The length of a packet: short, at a size that the rules name, or long.
fn length(random: &mut Random) -> usize {
    match random.below(64) {
        0 => random.between(1279, 1301),
        1 => random.one_of(&[1480, 1481, 576, 9196, 9197, 9216]),
        2 if random.once_in(16) => random.one_of(&[65515, 65516, 65535, 65534]),
        _ => random.between(40, 100),
    }
}

/// A packet, mostly one that is delivered.
fn inner(random: &mut Random, world: &World, source: u32, length: usize) -> Vec<u8> {
    let inner_source =
        if random.once_in(6) { other_source(random) } else { embedding(random, world.settings(), source) };
    let next_header = random.next() as u8;
    let mut inner = packets::packet(random, length, next_header, &inner_source);
    match random.below(16) {
        0 => inner[0] = random.next() as u8,
        1 => put16(&mut inner, 4, (length as u16).wrapping_sub(random.between(38, 42) as u16)),
        2 => inner.truncate(random.between(0, length)),
        _ => (),
    }
    inner
}

/// A destination and an interface, mostly of a locator.
fn arrival(random: &mut Random, world: &World) -> (u32, u8) {
    let locator = any_locator(random, world.settings());
    let destination = if random.once_in(20) { any_address(random, world) } else { locator.address };
    let interface = if random.once_in(12) { random.one_of(&[0, 255, 1]) } else { locator.interface };
    (destination, interface)
}

/// How much memory is lent: mostly all.
fn room(random: &mut Random, world: &World) -> usize {
    if random.once_in(30) {
        random.one_of(&[MEMORY, MEMORY - 1, MEMORY - 2048, 1, 0])
    } else {
        world.nodes.memory().len()
    }
}

fn receive(check: &mut Check, world: &mut World) {
    let random = &mut check.random;
    let source = any_address(random, world);
    let length = length(random).min(65515);
    let inner = inner(random, world, source, length);
    let (destination, interface) = arrival(random, world);
    let words = if random.once_in(3) { random.between(0, 10) } else { 0 };
    let words = if inner.len() > 65000 { 0 } else { words };
    let padding = if random.once_in(3) { random.between(0, 60) } else { 0 };
    let mut datagram = packets::datagram(random, (source, destination), words, &inner, padding);
    if random.once_in(3) {
        damage_datagram(random, &mut datagram);
    }
    let (time, room) = (time(random, world), room(random, world));
    _ = world.nodes.receive_in(check, &datagram, interface, time, room);
    stateless::read_outer(check, &datagram);
    stateless::unwrap(check, &datagram);
}

/// A piece of those on their way, which are those of some datagrams at once: as it is, damaged, or one that comes again later.
fn receive_piece(check: &mut Check, world: &mut World) {
    let random = &mut check.random;
    let interface = match random.below(4) {
        0 => cut_datagram(check, world),
        _ => arrival(random, world).1,
    };
    let random = &mut check.random;
    let Some(place) = world.parts.len().checked_sub(1).map(|last| random.between(0, last)) else { return };
    let mut part = world.parts[place].clone();
    if world.nodes.plain.service(world.nodes.service).is_some() && !random.once_in(12) {
        // To the service that it is for.
        world.nodes.service = world.nodes.owner(part.key.destination).unwrap_or(world.nodes.service);
    }
    if !random.once_in(5) {
        world.parts.swap_remove(place);
    }
    if random.once_in(5) {
        pieces::damage(random, &mut part);
    }
    let mut piece = part.bytes(random);
    if random.once_in(16) {
        damage_datagram(random, &mut piece);
    }
    if random.once_in(60) {
        // Somebody writes into the memory.
        let at = random.below(MEMORY);
        world.nodes.memory_mut()[at] ^= 1;
    }
    let (time, room) = (time(random, world), room(random, world));
    _ = world.nodes.receive_in(check, &piece, interface, time, room);
}

/// Sends a datagram on its way in pieces, and gives its interface.
fn cut_datagram(check: &mut Check, world: &mut World) -> u8 {
    let random = &mut check.random;
    let source = any_address(random, world);
    let length = match random.below(8) {
        0 => random.between(2030, 2060),
        1 => random.between(200, 2048),
        _ => random.between(40, 120),
    };
    let payload = inner(random, world, source, length);
    let (destination, interface) = arrival(random, world);
    let identification = random.one_of(&[0, 1, 2, 3, 4, 5, 6, 7, 8, 9, 0x8000, 0xffff]);
    let key = Key { source, destination, identification, protocol: 41 };
    if random.once_in(4) {
        let key = Key { protocol: random.one_of(&[41, 41, 41, 41, 41, 41, 41, 4]), ..key };
        pieces::joins(check, &world.nodes, key, &payload, interface);
        return interface;
    }
    world.parts.extend(pieces::cut(random, key, &payload));
    // Some are lost.
    let surplus = world.parts.len().saturating_sub(60);
    world.parts.drain(..surplus);
    interface
}

fn damage_datagram(random: &mut Random, datagram: &mut Vec<u8>) {
    let total = datagram.len() as u16;
    match random.below(8) {
        0 => datagram[9] = random.one_of(&[4, 40, 42, 58]),
        1 => put16(datagram, 6, random.one_of(&[0x2000, 1, 0x1000, 0x1fff, 0x6000, 0x4001, 0x0100])),
        2 => put16(datagram, 2, total.wrapping_add(random.between(0, 4) as u16).wrapping_sub(2)),
        3 => put16(datagram, 2, random.one_of(&[0, 19, 20, 21, 59, 60, 61])),
        4 => datagram[0] = 0x40 | random.below(16) as u8,
        5 => datagram[0] = random.next() as u8,
        _ => packets::damage(random, datagram),
    }
    if !random.once_in(4) {
        packets::repair_outer(datagram);
    }
}

fn send(check: &mut Check, world: &mut World) {
    let random = &mut check.random;
    let end = any_address(random, world);
    let next_hop = embedding(random, world.settings(), end);
    let limit = world.nodes.limit(end);
    let length = match random.below(6) {
        0 => limit + random.below(4) - 1,
        // Extension headers can end where the packet does, or a byte from there.
        1 => limit / 8 * 8 + 7 + random.below(3),
        _ => length(random),
    };
    let packet = sent_packet(random, length);
    let written = if length > limit { 1280 } else { length + 20 };
    let room = match random.below(12) {
        0 => written - 1,
        1 => random.one_of(&[0, 1, 1279, 1280]),
        2 => written + random.between(1, 300),
        _ => written,
    };
    let locator = locator_number(random, world);
    let time = time(random, world);
    world.nodes.send(check, &packet, next_hop, locator, time, room);
}

/// A packet of the length, half of them with extension headers; some are malformed.
fn sent_packet(random: &mut Random, length: usize) -> Vec<u8> {
    let source = if random.once_in(4) { other_source(random) } else { random.bytes() };
    let next_header = random.one_of(&[58, 58, 59, 6, 0, 44]);
    let mut packet = packets::packet(random, length, next_header, &source);
    put(&mut packet, 40, &[random.one_of(&[0, 1, 2, 127, 128, 129, 135, 136, 137, 138, 255])]);
    if random.once_in(2) {
        packets::random_chain(random, &mut packet);
    }
    if random.once_in(10) {
        match random.below(4) {
            0 => packet[0] = random.next() as u8,
            1 => put16(&mut packet, 4, (length - 40).wrapping_add(random.between(0, 2)).wrapping_sub(1) as u16),
            _ => packets::damage(random, &mut packet),
        }
    }
    packet
}

fn locator_number(random: &mut Random, world: &World) -> usize {
    let count = world.settings().locator_count;
    match random.below(24) {
        0 => random.one_of(&[count, count + 1, 8, 255, 256, 1 << 32, usize::MAX]),
        1 => random.below(10),
        _ => random.below(count),
    }
}

fn report(check: &mut Check, world: &mut World) {
    let random = &mut check.random;
    // The service that it belongs to, mostly; the sizes are about the one in force for it, or for the other.
    world.nodes.service = random.below(world.services()) as u8;
    let neighbour = any_address(random, world);
    let judge = if random.once_in(4) { 1 - world.nodes.service } else { world.nodes.service };
    let in_force = world.nodes.plain.path_size(judge, neighbour).unwrap_or(world.nodes.size(neighbour));
    let quoted = match random.below(4) {
        0 => random.one_of(&PLATEAUS).wrapping_add(random.below(3) as u16).wrapping_sub(1),
        1 => random.one_of(&[0, 20, 67, 68, 69, 70]),
        _ => in_force.saturating_add(random.below(40) as u16),
    };
    let size = match random.below(16) {
        0 => random.one_of(&[1, 66, 67, 68, 69, 1280, 1300, 1301, 65535]),
        1 | 2 => 0,
        3 => in_force.wrapping_add(random.below(3) as u16).wrapping_sub(1),
        4 => random.next() as u16,
        _ => in_force.saturating_sub(random.between(1, 30) as u16),
    };
    let locator = any_locator(random, world.settings()).address;
    let source = if random.once_in(30) { any_address(random, world) } else { locator };
    let words = if random.once_in(4) { random.between(0, 10) } else { 0 };
    let rest = random.one_of(&[0, 0, 8, 1, 7, 20, 548]);
    let mut message = packets::size_report(random, size, quoted, (source, neighbour), words, rest);
    if random.once_in(8) {
        damage_report(random, &mut message);
    }
    let time = time(random, world);
    world.nodes.report(check, &message, time);
}

fn damage_report(random: &mut Random, message: &mut Vec<u8>) {
    match random.below(6) {
        0 => message[random.below(2)] = random.below(12) as u8,
        1 => message[8] = 0x40 | random.below(16) as u8,
        2 => message[8] = random.next() as u8,
        3 => message[17] = random.one_of(&[4, 40, 42]),
        _ => packets::damage(random, message),
    }
    if !random.once_in(4) {
        packets::repair_report(message);
    }
}

fn replace(check: &mut Check, world: &mut World) {
    let random = &mut check.random;
    let mut list = world.routers.clone();
    for place in (1..list.len()).rev() {
        list.swap(place, random.below(place + 1));
    }
    let mut seen = Vec::new();
    list.retain(|router| !EDGES.contains(router) && !seen.contains(router) && (seen.push(*router), true).1);
    list.truncate(random.between(0, 16));
    if random.once_in(4) {
        match random.below(4) {
            0 => list.resize(random.one_of(&[17, 18, 40]), 0x0a03_0000),
            1 => list.push(any_address(random, world)),
            2 => list.extend(list.first().copied()),
            _ => list.push(random.one_of(&EDGES)),
        }
    }
    let time = time(random, world);
    world.nodes.replace_routers(check, &list, time);
}

fn ask(check: &mut Check, world: &mut World) {
    let random = &mut check.random;
    let room = if random.once_in(6) { random.one_of(&[0, 1, 47, 49, 100]) } else { 48 };
    let locator = locator_number(random, world);
    let time = time(random, world);
    world.nodes.ask(check, locator, time, room);
}

fn hear(check: &mut Check, world: &mut World) {
    let random = &mut check.random;
    let router = match world.nodes.named().routers() {
        routers if !routers.is_empty() && !random.once_in(8) => random.one_of(routers).address,
        _ => any_address(random, world),
    };
    let source = if random.once_in(12) {
        embedding(random, world.settings(), router)
    } else {
        packets::address(&LINK_LOCAL, random.one_of(&[0, 2]), router)
    };
    let mut options = Vec::new();
    for _ in 0..option_count(random) {
        options.extend(option(random, world.settings().interval));
    }
    let router_lifetime = lifetime(random, world.settings().interval).min(65535) as u16;
    let mut packet = packets::advertisement(random, &source, router_lifetime, &options);
    if random.once_in(4) {
        damage_message(random, &mut packet, 56);
    }
    let time = time(random, world);
    world.nodes.hear(check, &packet, time);
}

/// How many options a message has: mostly a few, now and then up to 40.
fn option_count(random: &mut Random) -> usize {
    if random.once_in(8) {
        random.between(0, 40)
    } else {
        random.one_of(&[0, 0, 1, 1, 2, 3, 5, 6])
    }
}

fn option(random: &mut Random, interval: u16) -> Vec<u8> {
    let (kind, units) = match random.below(8) {
        0..=2 => (3, 4),
        3..=5 => (24, random.between(1, 3) as u8),
        6 => (random.one_of(&[3, 24]), random.between(1, 6) as u8),
        _ => (random.next() as u8, random.between(1, 4) as u8),
    };
    let lifetime = lifetime(random, interval);
    packets::option(random, kind, units, lifetime)
}

/// A lifetime: often one that does not count, or one whose half is about the interval.
fn lifetime(random: &mut Random, interval: u16) -> u32 {
    match random.below(8) {
        0 | 1 => 0,
        2 => u32::MAX,
        3 => random.one_of(&[1, 2, 3, 7200, 7201, 0xfffe, 0xffff, 0x1_0000, u32::MAX - 1]),
        4 => 2 * u32::from(interval) + random.below(5) as u32,
        5 => random.next() as u32,
        _ => random.below(20_000) as u32,
    }
}

/// Changes one thing of a message whose options start at the place.
fn damage_message(random: &mut Random, packet: &mut Vec<u8>, options: usize) {
    let payload = packet.len() as u16 - 40;
    match random.below(10) {
        0 => packet[6] = random.one_of(&[0, 57, 59]),
        1 => packet[7] = random.one_of(&[0, 64, 254]),
        2 => packet[40] = packet[40].wrapping_add(random.one_of(&[1, 2, 124, 255])),
        3 => packet[41] = 1,
        4 => put16(packet, 4, payload.wrapping_sub(random.between(0, 24) as u16)),
        5 => put16(packet, 4, payload + random.below(9) as u16),
        6 if packet.len() > options + 1 => packet[options + 1] = random.below(8) as u8,
        7 => packet.extend([0; 3]),
        _ => packets::damage(random, packet),
    }
    if !random.once_in(5) {
        packets::repair_icmpv6(packet);
    }
}

fn advertise(check: &mut Check, world: &mut World) {
    let random = &mut check.random;
    let packet = solicitation(random, world);
    let locator = locator_number(random, world);
    let advertised = advertised::any(random);
    let needed = nodes::plain_advertisement(&advertised);
    let longest = &mut [0; advertised::LONGEST];
    let needed = world.nodes.plain.advertise(world.nodes.service, &packet, locator, &needed, longest);
    let room = match (needed, random.below(12)) {
        (Ok(length), 0) => length - 1,
        (Ok(length), 1) => length + random.between(1, 300),
        (Ok(length), 2..) => length,
        (Err(_), _) => random.one_of(&[0, 55, 56, advertised::LONGEST]),
    };
    let written = world.nodes.advertise(check, &packet, locator, &advertised, room);
    if let Ok(written) = written {
        let time = time(&mut check.random, world);
        let writer = world.settings().locators[locator].address;
        advertised::heard(check, &mut world.hearer, writer, &advertised, &written, time);
    }
}

/// A packet that asks, mostly from a link-local ISATAP address.
fn solicitation(random: &mut Random, world: &World) -> Vec<u8> {
    let embedded = any_address(random, world);
    let asker = match random.below(12) {
        0 => [0; 16],
        1 => other_source(random),
        2 => embedding(random, world.settings(), embedded),
        _ => packets::address(&LINK_LOCAL, random.one_of(&[0, 2]), embedded),
    };
    let mut options = Vec::new();
    let (count, source_too) = (option_count(random), !random.once_in(3));
    let source_at = random.below(count + 1);
    for place in 0..count {
        let any = random.next() as u8;
        let kind = if source_too && place == source_at { 1 } else { random.one_of(&[2, 2, 3, 24, any]) };
        let units = random.between(1, 4) as u8;
        let lifetime = random.next() as u32;
        options.extend(packets::option(random, kind, units, lifetime));
    }
    let mut packet = packets::solicitation(random, &asker, &options);
    if random.once_in(3) {
        damage_message(random, &mut packet, 48);
    }
    packet
}
