//! The edges of the rules, one by one: sizes, ages, the table's length, addresses, every byte of a valid input changed.

use crate::check::Check;
use crate::lists::break_settings;
use crate::nodes::{defaults, Nodes};
use crate::packets::{self, put, put16, EDGES};
use crate::plain::rules::link_local;
use crate::plain::{Address, Locator, Settings};
use crate::random::Random;
use crate::stateless;

pub const LOCATOR: u32 = 0x0a00_0001;
pub const NEIGHBOUR: u32 = 0x0a01_0001;
pub const ROUTER: u32 = 0x0a02_0001;
const PREFIX: [u8; 8] = [0x20, 0x01, 0x0d, 0xb8, 0, 0, 0, 1];
pub const SOURCE: Address = [0x20, 1, 0xd, 0xb8, 0, 0, 0, 9, 0, 0, 0, 0, 0, 0, 0, 9];

pub fn edges(check: &mut Check) {
    sizes(check);
    ages(check);
    neighbours(check);
    plateaus(check);
    routers(check);
    lifetimes(check);
    option_kinds(check);
    option_counts(check);
    places(check);
    messages(check);
    refused_settings(check);
    changed_datagrams(check);
    changed_packets(check);
    changed_reports(check);
    changed_advertisements(check);
}

/// One locator, one prefix, two routers, and the defaults.
pub fn settings() -> Settings {
    let mut settings = Settings { locator_count: 1, prefix_count: 1, router_count: 2, ..Settings::default() };
    settings.locators[0] = Locator { address: LOCATOR, interface: 7 };
    settings.prefixes[0] = PREFIX;
    settings.routers[..2].copy_from_slice(&[ROUTER, ROUTER + 1]);
    settings.defaults()
}

pub fn node(check: &mut Check, settings: &Settings) -> Nodes {
    Nodes::new(check, settings).expect("settings within the rules")
}

pub fn report(random: &mut Random, size: u16, neighbour: u32) -> Vec<u8> {
    packets::size_report(random, size, 1500, (LOCATOR, neighbour), 0, 8)
}

/// A packet of the length to the neighbour, with these rooms: what will be written, and a byte less.
fn send(check: &mut Check, nodes: &mut Nodes, length: usize, time: u32) {
    let packet = packets::packet(&mut check.random, length, 17, &SOURCE);
    let written = if length > nodes.limit(NEIGHBOUR) { 1280 } else { length + 20 };
    for room in [written - 1, written] {
        nodes.send(check, &packet, link_local(NEIGHBOUR), 0, time, room);
    }
}

/// Each path size about 1,280 and at the ends, by the link size and by a report, against each length about the limit.
fn sizes(check: &mut Check) {
    let reported = [68, 69, 575, 576, 577, 600, 1006, 1492, 1499, 1500, 4352, 9214, 9215, 9216];
    for size in (1279..=1325).chain(reported) {
        let mut by_link = settings();
        by_link.link_size = size.max(576);
        let mut node_by_link = node(check, &by_link);
        by_link.link_size = 9216;
        let mut node_by_report = node(check, &by_link);
        let message = report(&mut check.random, size, NEIGHBOUR);
        node_by_report.report(check, &message, 0);
        let about = usize::from(size).saturating_sub(44).max(40)..=usize::from(size).max(1280) + 2;
        let lengths = (1279..=1301).chain(about.filter(|length| length % 7 == 0 || length + 24 > usize::from(size)));
        for length in lengths.chain([40, 41, 48, 1480, 1481, 9196, 9197, 65515, 65516, 65575]) {
            send(check, &mut node_by_link, length, 0);
            send(check, &mut node_by_report, length, 0);
        }
    }
}

/// A report is in force under 600 s, from any time on; an equal or larger one changes nothing.
fn ages(check: &mut Check) {
    for start in [0, 1, 1000, 1 << 31, u32::MAX - 601, u32::MAX - 600, u32::MAX - 599, u32::MAX - 1, u32::MAX] {
        for age in [0, 1, 298, 299, 300, 598, 599, 600, 601, 1199, 1200] {
            let mut nodes = node(check, &settings());
            for (size, after) in [(1400, 0), (1400, age / 2), (1401, age / 2), (1399, age), (1500, age), (1499, age)] {
                let message = report(&mut check.random, size, NEIGHBOUR);
                nodes.report(check, &message, start.saturating_add(after));
                _ = nodes.path_size(check, NEIGHBOUR);
                send(check, &mut nodes, 1380, start.saturating_add(after));
            }
            // An earlier time is read as the latest.
            send(check, &mut nodes, 1380, start);
            send(check, &mut nodes, 1380, start.saturating_add(600));
        }
    }
}

/// One neighbour's report, then up to 130 other neighbours': the 63rd leaves it, the 64th removes it.
fn neighbours(check: &mut Check) {
    for renewed in [0, 1, 30, 62, 63, 64, 65] {
        let mut nodes = node(check, &settings());
        let message = report(&mut check.random, 1400, NEIGHBOUR);
        nodes.report(check, &message, 5);
        for other in 1..=130 {
            let message = report(&mut check.random, 1300 + other, NEIGHBOUR + u32::from(other));
            nodes.report(check, &message, 6);
            // A report of a neighbour that has one already.
            let message = report(&mut check.random, 1300, NEIGHBOUR + u32::from(renewed));
            if other > renewed && renewed > 0 {
                nodes.report(check, &message, 7);
            }
            if [1, 2, 61, 62, 63, 64, 65, 66, 127, 128, 130].contains(&other) {
                for neighbour in 0..=131 {
                    _ = nodes.path_size(check, NEIGHBOUR + neighbour);
                }
            }
        }
    }
}

/// Each quoted length about a plateau, each reported size about the smallest.
fn plateaus(check: &mut Check) {
    let mut wide = settings();
    wide.link_size = 9216;
    for plateau in [0, 68, 296, 508, 1006, 1492, 2002, 4352, 8166, 17914, 32000, 65535] {
        for quoted in [plateau - 1i32, plateau, plateau + 1] {
            for size in [0, 1, 67, 68] {
                let mut nodes = node(check, &wide);
                let ends = (LOCATOR, NEIGHBOUR);
                let message = packets::size_report(&mut check.random, size, quoted as u16, ends, 0, 8);
                nodes.report(check, &message, 1);
                _ = nodes.path_size(check, NEIGHBOUR);
            }
        }
    }
}

/// Ties, turns, due times at and past the last second, and lists that keep a due time.
fn routers(check: &mut Check) {
    for interval in [1, 2, 120, 3600] {
        for start in [0, 100, u32::MAX - 3601, u32::MAX - 120, u32::MAX - 1, u32::MAX] {
            let mut set = settings();
            set.interval = interval;
            set.router_count = 5;
            set.routers[..5].copy_from_slice(&[ROUTER + 4, ROUTER, ROUTER + 3, ROUTER + 1, ROUTER + 2]);
            let mut nodes = node(check, &set);
            for step in 0..12 {
                let time = start.saturating_add(step * u32::from(interval) / 3);
                for room in [47, 48, 48] {
                    nodes.ask(check, 0, time, room);
                }
                if step % 4 == 1 {
                    let list = [ROUTER + 9 + step, ROUTER + 2, ROUTER, ROUTER + 4];
                    nodes.replace_routers(check, &list, time);
                    nodes.replace_routers(check, &[ROUTER, LOCATOR], time + (time < u32::MAX) as u32);
                }
            }
            nodes.replace_routers(check, &[], start);
            nodes.ask(check, 0, start, 48);
        }
    }
}

/// Lifetimes that do not count, and those whose half is about the interval.
fn lifetimes(check: &mut Check) {
    let values = [0, 1, 2, 239, 240, 241, 242, 243, 7199, 7200, 7201, 0xffff, 0x1_0000, u32::MAX - 1, u32::MAX];
    let mut nodes = node(check, &settings());
    for router in values {
        for prefix in values {
            for route in values {
                let options = [
                    packets::option(&mut check.random, 3, 4, prefix),
                    packets::option(&mut check.random, 24, 2, route),
                ]
                .concat();
                let random = &mut check.random;
                let packet = packets::advertisement(random, &link_local(ROUTER), router as u16, &options);
                nodes.hear(check, &packet, 0);
            }
        }
    }
    for start in [1, u32::MAX - 3600, u32::MAX] {
        for lifetime in values {
            let option = packets::option(&mut check.random, 3, 4, lifetime);
            let packet = packets::advertisement(&mut check.random, &link_local(ROUTER), 0, &option);
            nodes.hear(check, &packet, start);
            nodes.ask(check, 0, start, 48);
        }
    }
}

/// Up to 40 options, of which the one in each place has the smallest lifetime, or the only one that counts.
fn option_counts(check: &mut Check) {
    let mut nodes = node(check, &settings());
    for (count, units) in (1..=40).flat_map(|count| [1, 2].map(|units| (count, units))) {
        for (counts, larger) in (0..count).flat_map(|place| [0, 2000].map(|larger| (place, larger))) {
            let lifetime = |place| if place == counts { 1000 } else { larger };
            let options: Vec<_> =
                (0..count).flat_map(|place| packets::option(&mut check.random, 24, units, lifetime(place))).collect();
            let packet = packets::advertisement(&mut check.random, &link_local(ROUTER), 0, &options);
            nodes.hear(check, &packet, 0);
        }
    }
}

/// Every type of option with every length about the right ones, alone and before and behind another.
fn option_kinds(check: &mut Check) {
    let mut nodes = node(check, &settings());
    for kind in 0..=255 {
        for units in 0..=5 {
            let tried = packets::option(&mut check.random, kind, units, 1000);
            let other = packets::option(&mut check.random, 3, 4, 2000);
            for options in [tried.clone(), [tried.clone(), other.clone()].concat(), [other, tried].concat()] {
                let mut packet = packets::advertisement(&mut check.random, &link_local(ROUTER), 0, &options);
                nodes.hear(check, &packet, 0);
                // The last option is cut by some bytes, or has some too many.
                for change in [1, 7, 8, 9] {
                    let payload = packet.len() as u16 - 40;
                    put16(&mut packet, 4, payload - change);
                    packets::repair_icmpv6(&mut packet);
                    nodes.hear(check, &packet, 0);
                    put16(&mut packet, 4, payload);
                }
                packet.extend([kind; 3]);
                let payload = packet.len() as u16 - 40;
                put16(&mut packet, 4, payload);
                packets::repair_icmpv6(&mut packet);
                nodes.hear(check, &packet, 0);
            }
        }
    }
}

/// Each address at the edge of the forbidden ones, in each place where one can stand; each first byte of an identifier.
fn places(check: &mut Check) {
    for address in EDGES.into_iter().chain([LOCATOR, NEIGHBOUR, ROUTER]) {
        for byte in [0, 1, 2, 3, 4, 0x80, 0x82, 0xfc, 0xfe, 0xff] {
            for prefix in [link_local(0), packets::address(&PREFIX, 0, 0), [0; 16], SOURCE] {
                let prefix: [u8; 8] = prefix[..8].try_into().expect("eight bytes");
                tried_at_each_place(check, address, packets::address(&prefix, byte, address));
            }
        }
        let mut compatible = [0; 16];
        put(&mut compatible, 12, &address.to_be_bytes());
        tried_at_each_place(check, address, compatible);
        for byte in 0..12 {
            compatible[byte] = 1;
            tried_at_each_place(check, address, compatible);
            compatible[byte] = 0;
        }
        stateless::forbidden(check, address);
        stateless::link_local(check, address);
    }
}

fn tried_at_each_place(check: &mut Check, address: u32, full: Address) {
    let mut nodes = node(check, &settings());
    let packet = packets::packet(&mut check.random, 60, 17, &full);
    for source in [address, NEIGHBOUR, ROUTER] {
        for (destination, interface) in [(LOCATOR, 7), (LOCATOR, 8), (address, 7)] {
            let ends = (source, destination);
            let datagram = packets::datagram(&mut check.random, ends, 0, &packet, 2);
            _ = nodes.receive(check, &datagram, interface, 0);
        }
    }
    nodes.send(check, &packet, full, 0, 1, 100);
    let large = packets::packet(&mut check.random, 1481, 58, &full);
    nodes.send(check, &large, link_local(NEIGHBOUR), 0, 1, 1280);
    for ends in [(address, NEIGHBOUR), (LOCATOR, address), (address, address)] {
        let message = packets::size_report(&mut check.random, 1400, 1500, ends, 0, 8);
        nodes.report(check, &message, 2);
    }
    nodes.replace_routers(check, &[address], 3);
    let advertisement = packets::advertisement(&mut check.random, &full, 600, &[]);
    nodes.hear(check, &advertisement, 3);
    stateless::bad_source(check, full);
    stateless::isatap(check, &[PREFIX; 8], 1, full);
    let mut set = settings();
    set.locators[0].address = address;
    Nodes::new(check, &set);
    set.routers[1] = address;
    Nodes::new(check, &set);
    set.reporting = full;
    Nodes::new(check, &set);
}

/// Too Big for every type of ICMPv6 message, and for other next headers with the same bytes.
fn messages(check: &mut Check) {
    let mut nodes = node(check, &settings());
    for kind in 0..=255 {
        for next_header in [58, 57, 59, 0, 60] {
            let mut packet = packets::packet(&mut check.random, 1500, next_header, &SOURCE);
            packet[40] = kind;
            for room in [0, 1279, 1280, 1400] {
                nodes.send(check, &packet, link_local(NEIGHBOUR), 0, 0, room);
            }
        }
    }
}

fn refused_settings(check: &mut Check) {
    for _ in 0..4000 {
        let mut broken = settings();
        broken.locator_count = 3;
        broken.locators[1] = Locator { address: LOCATOR, interface: 8 };
        broken.locators[2] = Locator { address: LOCATOR + 1, interface: 7 };
        break_settings(&mut check.random, &mut broken);
        Nodes::new(check, &broken);
        defaults(check, &broken);
    }
    let mut full = settings();
    (full.locator_count, full.router_count, full.prefix_count) = (8, 16, 8);
    for place in 0..8 {
        full.locators[place] = Locator { address: LOCATOR + 1, interface: place as u8 };
    }
    for place in 0..16 {
        full.routers[place] = ROUTER + place as u32;
    }
    node(check, &full);
    // Every pair of places with the same entry.
    for first in 0..16 {
        for second in 0..first {
            let mut broken = full;
            broken.routers[first] = broken.routers[second];
            Nodes::new(check, &broken);
            broken = full;
            broken.locators[first % 8] = broken.locators[second % 8];
            Nodes::new(check, &broken);
        }
        let mut broken = full;
        broken.routers[first] = LOCATOR + 1;
        Nodes::new(check, &broken);
        broken.routers[first] = 0xe000_0000 + first as u32;
        Nodes::new(check, &broken);
    }
}

/// Gives the bytes with each single byte changed in each way, and cut at each length.
pub fn changed(bytes: &[u8], first: usize, mut tried: impl FnMut(Vec<u8>)) {
    for at in 0..first.min(bytes.len()) {
        for value in 0..=255 {
            let mut changed = bytes.to_vec();
            changed[at] = value;
            tried(changed);
        }
    }
    for length in 0..bytes.len() {
        tried(bytes[..length].to_vec());
    }
    for more in [1, 2, 8] {
        let mut longer = bytes.to_vec();
        longer.resize(bytes.len() + more, 0x33);
        tried(longer);
    }
}

fn changed_datagrams(check: &mut Check) {
    let mut nodes = node(check, &settings());
    for (words, padding, source) in [(0, 0, NEIGHBOUR), (2, 0, NEIGHBOUR), (0, 5, NEIGHBOUR), (1, 1, ROUTER)] {
        let packet = packets::packet(&mut check.random, 47, 17, &packets::address(&PREFIX, 2, source));
        let datagram = packets::datagram(&mut check.random, (source, LOCATOR), words, &packet, padding);
        changed(&datagram, 64, |mut tried| {
            for _ in 0..2 {
                _ = nodes.receive(check, &tried, 7, 0);
                stateless::read_outer(check, &tried);
                stateless::unwrap(check, &tried);
                packets::repair_outer(&mut tried);
            }
            stateless::checksum_right(check, &tried[..tried.len().min(20)]);
        });
        for total in 0..=datagram.len() + 3 {
            let mut tried = datagram.clone();
            put16(&mut tried, 2, total as u16);
            packets::repair_outer(&mut tried);
            _ = nodes.receive(check, &tried, 7, 0);
            stateless::unwrap(check, &tried);
        }
        for interface in 0..=255 {
            _ = nodes.receive(check, &datagram, interface, 0);
        }
    }
}

fn changed_packets(check: &mut Check) {
    let mut nodes = node(check, &settings());
    let next_hop = packets::address(&PREFIX, 2, NEIGHBOUR);
    for length in [40, 60] {
        let packet = packets::packet(&mut check.random, length, 17, &SOURCE);
        changed(&packet, 44, |tried| {
            nodes.send(check, &tried, next_hop, 0, 1, tried.len() + 20);
        });
    }
    let packet = packets::packet(&mut check.random, 60, 17, &SOURCE);
    changed(&next_hop, 16, |tried| {
        if let Ok(address) = tried.try_into() {
            nodes.send(check, &packet, address, 0, 1, 80);
        }
    });
    let large = packets::packet(&mut check.random, 1481, 58, &SOURCE);
    changed(&large[..44], 44, |start| {
        let mut tried = large.clone();
        put(&mut tried, 0, &start);
        nodes.send(check, &tried, next_hop, 0, 1, 1300);
    });
    for locator in (0..20).chain([255, 256, 1 << 16, 1 << 32, usize::MAX - 1, usize::MAX]) {
        nodes.send(check, &packet, next_hop, locator, 1, 80);
        nodes.ask(check, locator, 1, 48);
    }
}

fn changed_reports(check: &mut Check) {
    let mut nodes = node(check, &settings());
    let mut time = 0;
    for (words, rest) in [(0, 0), (0, 1), (1, 8), (10, 0)] {
        let message = packets::size_report(&mut check.random, 1400, 1500, (LOCATOR, NEIGHBOUR), words, rest);
        changed(&message, 40, |mut tried| {
            // Mostly no report is in force any more.
            time += 601;
            nodes.report(check, &tried, time);
            packets::repair_report(&mut tried);
            nodes.report(check, &tried, time);
            stateless::checksum_right(check, &tried);
        });
    }
}

fn changed_advertisements(check: &mut Check) {
    let mut nodes = node(check, &settings());
    let option = packets::option(&mut check.random, 24, 1, 900);
    for options in [&[][..], &option] {
        let packet = packets::advertisement(&mut check.random, &link_local(ROUTER), 1800, options);
        changed(&packet, packet.len(), |mut tried| {
            nodes.hear(check, &tried, 1);
            packets::repair_icmpv6(&mut tried);
            nodes.hear(check, &tried, 1);
        });
        for payload in 0..=packet.len() as u16 {
            let mut tried = packet.clone();
            put16(&mut tried, 4, payload);
            packets::repair_icmpv6(&mut tried);
            nodes.hear(check, &tried, 2);
        }
    }
}
