//! The edges of services (R26), each with what it must give: services that a node has not, settings that share an address, path sizes of two
//! link sizes, whose report it is, what is a service's own, and that neither service sees how the other is set up.

use crate::advertised;
use crate::check::{same, Check};
use crate::edges::{node, settings, LOCATOR, NEIGHBOUR, ROUTER, SOURCE};
use crate::lists::break_settings;
use crate::nodes::{boundary_service, Nodes};
use crate::packets::{self, put16};
use crate::pieces::{joins, Part};
use crate::plain::pieces::{Key, MEMORY};
use crate::plain::rules::link_local;
use crate::plain::{Locator, Settings};
use bogtrumpet::raw::Advertisement;

/// The locator of the second service; that of the first is `LOCATOR`, on the same interface.
const OTHER: u32 = 0x0a00_0011;
const LOCATORS: [u32; 2] = [LOCATOR, OTHER];
const INTERFACE: u8 = 7;
const ABSENT: u8 = 11;
const WAITS: u8 = 27;

pub fn edges(check: &mut Check) {
    absent(check);
    refused_settings(check);
    shared_addresses(check);
    sizes(check);
    orders_of_reports(check);
    ages(check);
    neighbours(check);
    bound(check);
    own(check);
    arrivals(check);
    identifications(check);
    routers(check);
    nine(check);
    cuttings(check);
    interference(check);
}

/// Settings of a second service, to which the first one's locator is a router.
fn second() -> Settings {
    let mut second = settings();
    second.locators[0].address = OTHER;
    second.prefixes[0][7] = 2;
    second.routers[0] = LOCATOR;
    (second.link_size, second.identification, second.ttl) = (9000, 700, 9);
    second.reporting = link_local(OTHER);
    second
}

fn pair(check: &mut Check, first: &Settings, second: &Settings) -> Nodes {
    Nodes::pair(check, first, second).expect("settings within the rules")
}

fn two(check: &mut Check) -> Nodes {
    pair(check, &settings(), &second())
}

/// Two services of these link sizes.
fn of_links(check: &mut Check, links: [u16; 2]) -> Nodes {
    let [first, second] =
        [(settings(), links[0]), (second(), links[1])].map(|(settings, link_size)| Settings { link_size, ..settings });
    pair(check, &first, &second)
}

/// A service that the node has not, by each number.
fn absent(check: &mut Check) {
    let mut one = node(check, &settings());
    let mut two = two(check);
    for service in 1..=255 {
        absent_in_each_call(check, one.through(service));
        if service > 1 {
            absent_in_each_call(check, two.through(service));
        }
    }
}

/// Each call as the first service takes it, and with faults that come before all others but this one. The latest time is raised.
fn absent_in_each_call(check: &mut Check, nodes: &mut Nodes) {
    let random = &mut check.random;
    let good = packets::packet(random, 60, 17, &link_local(NEIGHBOUR));
    let datagram = packets::datagram(random, (NEIGHBOUR, LOCATOR), 0, &good, 0);
    let key = Key { source: NEIGHBOUR, destination: LOCATOR, identification: 5, protocol: 41 };
    let piece = packets::piece(random, &key, 0, true, &good[..48]);
    let advertisement = packets::advertisement(random, &link_local(ROUTER), 1800, &[]);
    let mut time = nodes.plain.latest();
    let mut refused = |nodes: &mut Nodes, call: &mut dyn FnMut(&mut Nodes, u32) -> u8| {
        time += 1;
        let given = call(nodes, time);
        let service = nodes.service;
        same("number and latest time", &(ABSENT, time), &(given, nodes.library.latest), &|| {
            format!("service {service}")
        });
    };
    for (bytes, room) in [(&datagram, nodes.memory().len()), (&piece, nodes.memory().len()), (&Vec::new(), 0)] {
        refused(nodes, &mut |nodes, time| refusal(nodes.receive_in(check, bytes, INTERFACE, time, room)));
    }
    for (packet, hop, locator, room) in [(&good[..], link_local(NEIGHBOUR), 0, 80), (&[], [0; 16], 9, 0)] {
        refused(nodes, &mut |nodes, time| nodes.send(check, packet, hop, locator, time, room));
    }
    for list in [&[][..], &[ROUTER, ROUTER], &[0]] {
        refused(nodes, &mut |nodes, time| nodes.replace_routers(check, list, time));
    }
    for (locator, room) in [(0, 48), (9, 0)] {
        refused(nodes, &mut |nodes, time| nodes.ask(check, locator, time, room));
    }
    for packet in [&advertisement[..], &[]] {
        refused(nodes, &mut |nodes, time| nodes.hear(check, packet, time));
    }
    absent_without_time(check, nodes);
}

/// The number of a refusal.
fn refusal<T>(answer: Result<T, u8>) -> u8 {
    answer.err().unwrap_or(0)
}

fn absent_without_time(check: &mut Check, nodes: &Nodes) {
    let asks = packets::solicitation(&mut check.random, &link_local(NEIGHBOUR), &[]);
    let none = Advertisement::default();
    for (packet, locator, room) in [(&asks[..], 0, advertised::LONGEST), (&[], 9, 0)] {
        let given = nodes.advertise(check, packet, locator, &none, room);
        same("advertise", &Err(ABSENT), &given, &|| format!("service {}", nodes.service));
    }
    let size = nodes.path_size(check, NEIGHBOUR);
    same("size", &Err(ABSENT), &size, &|| format!("service {}", nodes.service));
}

/// One thing of either service changed, in most cases to what the rules refuse.
fn refused_settings(check: &mut Check) {
    for _ in 0..2000 {
        let mut broken = [settings(), second()];
        break_settings(&mut check.random, &mut broken[0]);
        Nodes::pair(check, &broken[0], &broken[1]);
        Nodes::pair(check, &broken[1], &broken[0]);
    }
}

/// Each of eight locators of the one has the address of each of the other, on its interface or on another one; also behind the counts.
fn shared_addresses(check: &mut Check) {
    let [mut first, mut second] = [settings(), second()];
    (first.locator_count, second.locator_count) = (8, 8);
    for place in 0..8 {
        first.locators[place] = Locator { address: LOCATOR + place as u32, interface: 7 };
        second.locators[place] = Locator { address: OTHER + place as u32, interface: 7 };
    }
    second.routers[0] = first.locators[7].address;
    pair(check, &first, &second);
    for (one, other) in (0..8).flat_map(|one| (0..8).map(move |other| (one, other))) {
        for interface in [7, 8] {
            let mut broken = Settings { router_count: 0, ..second };
            broken.locators[one] = Locator { interface, ..first.locators[other] };
            let given = [Nodes::pair(check, &first, &broken), Nodes::pair(check, &broken, &first)];
            same("made", &[false; 2], &given.map(|made| made.is_some()), &|| format!("{one} is {other}"));
            broken.locator_count = one.max(1);
            let made = Nodes::pair(check, &first, &broken).is_some();
            same("made", &(one > 0), &made, &|| format!("{one} behind the count is {other}"));
        }
    }
}

/// A report of that size for the service about the neighbour, which must give the number.
fn report_gives(check: &mut Check, nodes: &mut Nodes, number: u8, owner: usize, size: u16, time: u32) {
    let ends = (LOCATORS[owner], NEIGHBOUR);
    let message = packets::size_report(&mut check.random, size, 1500, ends, 0, 8);
    let given = nodes.report(check, &message, time);
    same("number", &number, &given, &|| format!("{size} for service {owner}"));
}

/// The sizes in force toward the neighbour, and the longest packet that passes of each service.
fn in_force(check: &mut Check, nodes: &mut Nodes, sizes: [u16; 2]) {
    for (service, size) in (0..).zip(sizes) {
        let given = nodes.through(service).path_size(check, NEIGHBOUR);
        same("size", &Ok(size), &given, &|| format!("service {service}"));
        let most = usize::from(size).saturating_sub(20).max(1280);
        for (length, number) in [(most, 0), (most + 1, 14)] {
            let packet = packets::packet(&mut check.random, length, 17, &SOURCE);
            let given = nodes.send(check, &packet, link_local(NEIGHBOUR), 0, 0, length + 20);
            same("number", &number, &given, &|| format!("{length} bytes, service {service}"));
        }
    }
}

const LINKS: [[u16; 2]; 6] = [[1500, 9000], [9000, 1500], [576, 9216], [1300, 1301], [1320, 1500], [1500, 1500]];

/// A report of each size about both link sizes, for either service: taken exactly if it is below that service's own, and then in force for
/// both, as far as it is below their link sizes.
fn sizes(check: &mut Check) {
    for links in LINKS {
        let about = links.into_iter().flat_map(|link| [link - 1, link, link + 1]);
        for size in about.chain([68, 575, 1280, 1400, 5000, u16::MAX]) {
            for owner in 0..2 {
                let mut nodes = of_links(check, links);
                let taken = size < links[owner];
                report_gives(check, &mut nodes, if taken { 0 } else { 19 }, owner, size, 1);
                in_force(check, &mut nodes, if taken { links.map(|link| link.min(size)) } else { links });
            }
        }
    }
}

/// Two reports, the second about the size of the first or a link size: it must be below the size in force of its own service.
fn orders_of_reports(check: &mut Check) {
    let links = [1500, 9000];
    for (first, owner) in [(1400, 0), (1499, 0), (1400, 1), (1499, 1), (1500, 1), (5000, 1)] {
        for next in [first - 1, first, first + 1, 1499, 1500, 1501] {
            for other in 0..2 {
                let mut nodes = of_links(check, links);
                report_gives(check, &mut nodes, 0, owner, first, 1);
                let taken = next < first.min(links[other]);
                report_gives(check, &mut nodes, if taken { 0 } else { 19 }, other, next, 2);
                let kept = if taken { next } else { first };
                in_force(check, &mut nodes, links.map(|link| link.min(kept)));
            }
        }
    }
}

/// A report for either service is in force for both under 600 s. The time of every call counts, also of a service that the node has not.
fn ages(check: &mut Check) {
    for (owner, caller) in [(0, 0), (0, 1), (1, 0), (1, 1), (0, 2), (1, 255)] {
        for (age, sizes) in [(599, [1400; 2]), (600, [1500, 9000])] {
            let mut nodes = two(check);
            report_gives(check, &mut nodes, 0, owner, 1400, 100);
            nodes.through(caller).ask(check, 0, 100 + age, 48);
            in_force(check, &mut nodes, sizes);
        }
    }
}

/// One neighbour's report for the first, then those of other neighbours, for the services in turn: the 63rd leaves it, the 64th removes it.
fn neighbours(check: &mut Check) {
    let mut nodes = two(check);
    report_gives(check, &mut nodes, 0, 0, 1400, 5);
    for other in 1..=64 {
        let ends = (LOCATORS[other % 2], NEIGHBOUR + other as u32);
        let message = packets::size_report(&mut check.random, 1300, 1500, ends, 0, 8);
        nodes.report(check, &message, 6);
        in_force(check, &mut nodes, if other < 64 { [1400; 2] } else { [1500, 9000] });
    }
}

/// A sender that heeds gets one Too Big more than there are accepted reports for its neighbour, also if all are the other service's.
fn bound(check: &mut Check) {
    for (sender, reporter) in [(0, 1), (1, 0), (0, 0), (1, 1)] {
        let mut nodes = of_links(check, [1500, 1500]);
        let (mut told, mut length) = (0, 1481);
        for report in 0..20 {
            let packet = packets::packet(&mut check.random, length, 17, &SOURCE);
            let number = nodes.through(sender).send(check, &packet, link_local(NEIGHBOUR), 0, 1, 1500);
            told += usize::from(number == 14);
            length = nodes.limit(NEIGHBOUR);
            report_gives(check, &mut nodes, 0, reporter, 1490 - 8 * report as u16, 1);
        }
        same("Too Big", &20, &told, &|| format!("sender of {sender}, reports for {reporter}"));
    }
}

/// A locator's address is our own to its service alone: as a tunnel end, and as the neighbour of a report.
fn own(check: &mut Check) {
    let mut nodes = two(check);
    let packet = packets::packet(&mut check.random, 60, 17, &SOURCE);
    for (service, end) in [(0, 0), (0, 1), (1, 0), (1, 1)] {
        let number = |refused| if service == end { refused } else { 0 };
        let call = || format!("service {service}, its {}", if service == end { "own" } else { "neighbour" });
        let given = nodes.through(service as u8).send(check, &packet, link_local(LOCATORS[end]), 0, 0, 80);
        same("send", &number(13), &given, &call);
        let ends = (LOCATORS[service], LOCATORS[end]);
        let message = packets::size_report(&mut check.random, 1400, 1500, ends, 0, 8);
        let given = nodes.report(check, &message, 0);
        same("report", &number(17), &given, &call);
        let given = nodes.path_size(check, LOCATORS[end]);
        let link_size = nodes.named().settings().link_size;
        same("size", &Ok(if service == end { link_size } else { 1400 }), &given, &call);
        nodes = two(check);
    }
    // A source that neither has, nor the one service of a node.
    let message = packets::size_report(&mut check.random, 1400, 1500, (NEIGHBOUR, LOCATOR), 0, 8);
    same("report", &17, &nodes.report(check, &message, 0), &|| "of neither".into());
    let message = packets::size_report(&mut check.random, 1400, 1500, (OTHER, NEIGHBOUR), 0, 8);
    let given = node(check, &settings()).report(check, &message, 0);
    same("report", &17, &given, &|| "of a second service that is not there".into());
}

/// A datagram is for the service whose locator it is sent to, by that service's prefixes and routers.
fn arrivals(check: &mut Check) {
    let mut nodes = two(check);
    let prefixed = |settings: Settings| packets::address(&settings.prefixes[0], 0, NEIGHBOUR);
    for (source, inner, numbers) in [
        (NEIGHBOUR, link_local(NEIGHBOUR), [0, 0]),
        (NEIGHBOUR, prefixed(settings()), [0, 10]),
        (NEIGHBOUR, prefixed(second()), [10, 0]),
        // A router of the first alone, one of both, and one of the second alone.
        (ROUTER, SOURCE, [0, 10]),
        (ROUTER + 1, SOURCE, [0, 0]),
        (LOCATOR, SOURCE, [10, 0]),
    ] {
        for (destination, service) in [(0, 0), (0, 1), (1, 0), (1, 1)] {
            let packet = packets::packet(&mut check.random, 60, 17, &inner);
            let ends = (source, LOCATORS[destination]);
            let datagram = packets::datagram(&mut check.random, ends, 0, &packet, 0);
            let given = refusal(nodes.through(service).receive(check, &datagram, INTERFACE, 0));
            let number = if destination == usize::from(service) { numbers[destination] } else { 6 };
            same("number", &number, &given, &|| format!("from {source:#x} to {destination}, service {service}"));
        }
    }
}

/// Each service numbers its own packets.
fn identifications(check: &mut Check) {
    let first = Settings { identification: u16::MAX - 1, ..settings() };
    let mut nodes = pair(check, &first, &second());
    let mut next = [u16::MAX - 1, 700];
    for turn in 0..40 {
        let service = check.random.below(3);
        let length = if turn % 5 == 4 { 9300 } else { 60 };
        let packet = packets::packet(&mut check.random, length, 17, &SOURCE);
        let given = nodes.through(service as u8).send(check, &packet, link_local(NEIGHBOUR), 0, 0, 1280);
        if given == 0 {
            next[service] = next[service].wrapping_add(1);
        }
        let is = [nodes.library.first.identification, nodes.library.second.identification];
        same("identifications", &next, &is, &|| format!("turn {turn}, service {service}"));
    }
}

/// Lists, due times and intervals of the one are nothing to the other.
fn routers(check: &mut Check) {
    let mut nodes = pair(check, &settings(), &Settings { interval: 10, ..second() });
    for (service, time, router) in
        [(0, 5, ROUTER), (1, 5, LOCATOR), (1, 6, ROUTER + 1), (0, 6, ROUTER + 1), (1, 15, LOCATOR), (0, 125, ROUTER)]
    {
        let given = nodes.through(service).ask(check, 0, time, 48);
        let asked = boundary_service(&mut nodes.library.clone(), service).routers;
        let due = asked.addresses[..2].iter().position(|&address| address == router).map(|place| asked.dues[place]);
        let interval = [120, 10][usize::from(service)];
        same("number and due time", &(0, Some(u64::from(time) + interval)), &(given, due), &|| format!("{router:#x}"));
    }
    for (router, numbers) in [(ROUTER, [0, 21]), (LOCATOR, [21, 0]), (ROUTER + 1, [0, 0]), (OTHER, [21, 21])] {
        let packet = packets::advertisement(&mut check.random, &link_local(router), 1800, &[]);
        let given = [0, 1].map(|service| nodes.through(service).hear(check, &packet, 130));
        same("numbers", &numbers, &given, &|| format!("from {router:#x}"));
    }
    // No list has a locator of its own service.
    for (list, numbers) in [(LOCATOR, [1, 0]), (OTHER, [0, 1]), (ROUTER, [0, 0])] {
        let given = [0, 1].map(|service| nodes.through(service).replace_routers(check, &[list], 130));
        same("numbers", &numbers, &given, &|| format!("a list of {list:#x}"));
    }
}

/// A packet and the key under which it comes in pieces to the service, of which the same stand in the keys of the other.
fn in_pieces(check: &mut Check, service: usize, identification: u16) -> [Vec<u8>; 2] {
    let packet = packets::packet(&mut check.random, 100, 17, &link_local(NEIGHBOUR));
    let key = Key { source: NEIGHBOUR, destination: LOCATORS[service], identification, protocol: 41 };
    let first = Part { key, offset: 0, more: true, payload: packet[..48].to_vec() };
    let last = Part { key, offset: 6, more: false, payload: packet[48..].to_vec() };
    [first, last].map(|part| part.bytes(&mut check.random))
}

/// Eight datagrams wait in the one collection and one in the other: a ninth finds no place in the one, and one more does in the other. Then
/// all are joined.
fn nine(check: &mut Check) {
    for (full, other) in [(0, 1), (1, 0)] {
        let mut nodes = two(check);
        let mut gives = |check: &mut Check, service: usize, piece: &[u8], number: u8| {
            let given = refusal(nodes.through(service as u8).receive(check, piece, INTERFACE, 3));
            same("number", &number, &given, &|| format!("service {service}, {full} is full"));
        };
        let waiting: Vec<_> = (0..9).map(|identification| in_pieces(check, full, identification)).collect();
        let beside = [0, 1].map(|identification| in_pieces(check, other, identification));
        waiting[..8].iter().for_each(|[first, _]| gives(check, full, first, WAITS));
        gives(check, other, &beside[0][0], WAITS);
        gives(check, full, &waiting[8][0], 28);
        gives(check, other, &beside[1][0], WAITS);
        // The other's pieces are not for it.
        gives(check, full, &beside[0][1], 6);
        waiting[..8].iter().for_each(|[_, last]| gives(check, full, last, 0));
        beside.iter().for_each(|[_, last]| gives(check, other, last, 0));
    }
}

/// Cuttings for each service, with pieces of the other in between.
fn cuttings(check: &mut Check) {
    let mut nodes = two(check);
    for service in 0..2 {
        for length in [48, 72, 600, 2048] {
            let payload = packets::packet(&mut check.random, length, 17, &link_local(NEIGHBOUR));
            let destination = LOCATORS[usize::from(service)];
            let key = Key { source: NEIGHBOUR, destination, identification: 5, protocol: 41 };
            for _ in 0..20 {
                joins(check, nodes.through(service), key, &payload, INTERFACE);
            }
        }
    }
}

/// Two nodes that differ in routers, prefixes and first identification of one service are the same to the other, whatever is called (R26.9).
fn interference(check: &mut Check) {
    for changed in [0, 1] {
        for _ in 0..60 {
            let mut other = [settings(), second()];
            let set = &mut other[usize::from(changed)];
            (set.prefix_count, set.identification) = (check.random.below(2), check.random.next() as u16);
            set.routers[..2].copy_from_slice(&[ROUTER + 7, NEIGHBOUR]);
            let mut nodes = [two(check), pair(check, &other[0], &other[1])];
            nodes.iter_mut().for_each(|nodes| (0..2).for_each(|service| nodes.through(service).memory_mut().fill(0)));
            for _ in 0..60 {
                interferes_not(check, &mut nodes, changed);
            }
        }
    }
}

/// One random call on both.
fn interferes_not(check: &mut Check, nodes: &mut [Nodes; 2], changed: u8) {
    let (service, kind) = (check.random.below(2), check.random.below(6));
    let time = nodes[0].plain.latest() + check.random.one_of(&[0, 0, 1, 9, 60]);
    let lists = [vec![ROUTER], if service == usize::from(changed) { vec![ROUTER + 9] } else { vec![ROUTER] }];
    let packet = any_packet(check, service);
    let mut called = |nodes: &mut Nodes, list: &[u32]| match kind {
        0 => nodes.receive(check, &packet.datagram, INTERFACE, time),
        1 => Err(nodes.send(check, &packet.inner, link_local(packet.neighbour), 0, time, 1300)),
        2 => Err(nodes.report(check, &packet.report, time)),
        3 => Err(nodes.replace_routers(check, list, time)),
        4 => Err(nodes.ask(check, 0, time, 48)),
        _ => Err(nodes.hear(check, &packet.advertisement, time)),
    };
    let given = [0, 1].map(|run| called(nodes[run].through(service as u8), &lists[run]));
    let call = || format!("kind {kind} of service {service}, {changed} is set up otherwise");
    if kind == 2 || service != usize::from(changed) {
        same("answer", &given[0], &given[1], &call);
    }
    let [one, two] = nodes.each_mut().map(|nodes| {
        let mut service = *boundary_service(&mut nodes.library, 1 - changed);
        // What stands behind the count is not determined, and each call was lent other entries there.
        service.routers.addresses[service.routers.count..].fill(0);
        service.routers.dues[service.routers.count..].fill(0);
        (service, nodes.library.paths, nodes.library.latest, nodes.through(1 - changed).memory()[..MEMORY].to_vec())
    });
    same("the other service", &one, &two, &call);
}

/// What a random call is given, for either service.
struct Given {
    neighbour: u32,
    inner: Vec<u8>,
    datagram: Vec<u8>,
    report: Vec<u8>,
    advertisement: Vec<u8>,
}

fn any_packet(check: &mut Check, service: usize) -> Given {
    let random = &mut check.random;
    let neighbour = random.one_of(&[NEIGHBOUR, NEIGHBOUR + 1, ROUTER, ROUTER + 7, LOCATORS[1 - service]]);
    let prefix = random.one_of(&[settings().prefixes[0], second().prefixes[0], [0xfe, 0x80, 0, 0, 0, 0, 0, 0]]);
    let length = random.one_of(&[60, 60, 1280, 1281, 1480]);
    let inner = packets::packet(random, length, 17, &packets::address(&prefix, 0, neighbour));
    let mut datagram = packets::datagram(random, (neighbour, LOCATORS[service]), 0, &inner[..], 0);
    if random.once_in(2) {
        // A first piece, which is of a length that is allowed.
        datagram.truncate(20 + 56);
        put16(&mut datagram, 2, 76);
        put16(&mut datagram, 4, random.below(12) as u16);
        put16(&mut datagram, 6, 0x2000);
        packets::repair_outer(&mut datagram);
    }
    let (size, quoted) = (random.between(1290, 1600) as u16, random.one_of(&LOCATORS));
    let report = packets::size_report(random, size, 1500, (quoted, neighbour), 0, 8);
    let advertisement = packets::advertisement(random, &link_local(neighbour), 1800, &[]);
    Given { neighbour, inner, datagram, report, advertisement }
}
