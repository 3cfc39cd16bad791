//! The edges of advertising: every prefix length, flag and preference, counts, lifetimes and rooms; askers, options, and every byte of a
//! solicitation changed.

use crate::advertised::{self, LENGTHS, LONGEST};
use crate::check::{same, Check};
use crate::edges::{changed, node, settings, LOCATOR};
use crate::nodes::Nodes;
use crate::packets::{self, put, put16, EDGES};
use crate::plain::rules::link_local;
use crate::plain::{Address, Locator};
use bogtrumpet::raw::{AdvertisedPrefix, AdvertisedRoute, Advertisement};

const ASKER: u32 = 0x0a01_0009;

pub fn edges(check: &mut Check) {
    let mut ends = Ends { writer: node(check, &settings()), hearer: advertised::hearer(check, &[settings()]) };
    counts(check, &mut ends);
    lengths(check, &mut ends);
    bytes(check, &mut ends);
    lifetimes(check, &mut ends);
    askers(check, &mut ends);
    option_kinds(check, &mut ends);
    option_counts(check, &mut ends);
    changed_solicitations(check, &mut ends);
    locators(check);
    orders(check, &ends);
}

/// A node that advertises and one that lists it.
struct Ends {
    writer: Nodes,
    hearer: Nodes,
}

impl Ends {
    /// The advertisement for a good solicitation, with the largest room, with what it needs and with a byte less.
    fn advertise(&mut self, check: &mut Check, advertised: &Advertisement) {
        let packet = packets::solicitation(&mut check.random, &link_local(ASKER), &[]);
        let Ok(written) = self.writer.advertise(check, &packet, 0, advertised, LONGEST) else { return };
        for room in [written.len(), written.len() - 1] {
            _ = self.writer.advertise(check, &packet, 0, advertised, room);
        }
        let time = self.hearer.plain.latest() + 1;
        advertised::heard(check, &mut self.hearer, LOCATOR, advertised, &written, time);
    }

    /// The packet asks for an advertisement with one prefix and one route.
    fn asked(&self, check: &mut Check, packet: &[u8]) {
        _ = self.writer.advertise(check, packet, 0, &counted(1, 1), LONGEST);
    }
}

/// So many prefixes and routes, all bits set, of every length in turn.
fn counted(prefix_count: usize, route_count: usize) -> Advertisement {
    let mut advertised = Advertisement { prefix_count, route_count, lifetime: 1800, ..Advertisement::default() };
    for (place, prefix) in advertised.prefixes.iter_mut().enumerate() {
        *prefix = AdvertisedPrefix { bytes: [0xff; 16], length: LENGTHS[place], valid: 7200, ..*prefix };
    }
    for (place, route) in advertised.routes.iter_mut().enumerate() {
        *route = AdvertisedRoute { bytes: [0xff; 16], length: LENGTHS[place + 4], lifetime: 7200, ..*route };
    }
    advertised
}

/// Every pair of counts up to 10, and counts that are 0 to 8 in their lower bits; every room for the shortest and the longest.
fn counts(check: &mut Check, ends: &mut Ends) {
    let large = [255, 256, 257, 1 << 16, 1 << 32, (1 << 32) + 8, usize::MAX];
    for prefixes in (0..=10).chain(large) {
        for routes in (0..=10).chain(large) {
            ends.advertise(check, &counted(prefixes, routes));
        }
    }
    let mut longest = counted(8, 8);
    longest.routes.iter_mut().for_each(|route| route.length = 128);
    let packet = packets::solicitation(&mut check.random, &link_local(ASKER), &[]);
    for room in 0..LONGEST + 8 {
        _ = ends.writer.advertise(check, &packet, 0, &counted(0, 0), room);
        let written = ends.writer.advertise(check, &packet, 0, &longest, room);
        same("room for the longest", &(room >= LONGEST), &written.is_ok(), &|| format!("room {room}"));
    }
}

/// Every length of a prefix and of a route: alone, at the last place, and behind the count.
fn lengths(check: &mut Check, ends: &mut Ends) {
    for length in 0..=255 {
        for bytes in [[0xff; 16], check.random.bytes()] {
            for (count, place) in [(1, 0), (8, 7), (3, 3)] {
                let mut prefixes = counted(count, 2);
                (prefixes.prefixes[place].bytes, prefixes.prefixes[place].length) = (bytes, length);
                ends.advertise(check, &prefixes);
                let mut routes = counted(2, count);
                (routes.routes[place].bytes, routes.routes[place].length) = (bytes, length);
                ends.advertise(check, &routes);
            }
        }
    }
}

/// Every byte as each flag and as a preference.
fn bytes(check: &mut Check, ends: &mut Ends) {
    for byte in 0..=255 {
        for place in 0..5 {
            let mut advertised = counted(2, 2);
            *match place {
                0 => &mut advertised.managed,
                1 => &mut advertised.other,
                2 => &mut advertised.prefixes[1].on_link,
                3 => &mut advertised.prefixes[1].autonomous,
                _ => &mut advertised.routes[1].preference,
            } = byte;
            ends.advertise(check, &advertised);
        }
    }
}

/// Lifetimes that do not count, and those whose half is about the interval: at each place alone and together.
fn lifetimes(check: &mut Check, ends: &mut Ends) {
    let interval = u32::from(ends.hearer.named().settings().interval);
    let values = [0, 1, 2, 2 * interval, 2 * interval + 1, 2 * interval + 2, 7200, 0xffff, u32::MAX - 1, u32::MAX];
    for router in values {
        for valid in values {
            for route in values {
                let mut advertised = counted(2, 2);
                advertised.lifetime = router as u16;
                for (place, prefix) in advertised.prefixes.iter_mut().enumerate() {
                    prefix.valid = if place == 1 { valid } else { 0 };
                    prefix.preferred = check.random.one_of(&values);
                }
                for (place, entry) in advertised.routes.iter_mut().enumerate() {
                    entry.lifetime = if place == 1 { route } else { u32::MAX };
                }
                ends.advertise(check, &advertised);
            }
        }
    }
}

/// Each address at the edge of the forbidden ones behind each first byte of an identifier, and addresses that are not link-local.
fn askers(check: &mut Check, ends: &mut Ends) {
    for embedded in EDGES.into_iter().chain([LOCATOR, ASKER]) {
        for first in 0..=255 {
            let asker = packets::address(&[0xfe, 0x80, 0, 0, 0, 0, 0, 0], first, embedded);
            let packet = packets::solicitation(&mut check.random, &asker, &[]);
            ends.asked(check, &packet);
        }
        for (at, bit) in (0..16).flat_map(|at| (0..8).map(move |bit| (at, bit))) {
            let mut asker: Address = link_local(embedded);
            asker[at] ^= 1 << bit;
            let packet = packets::solicitation(&mut check.random, &asker, &[]);
            ends.asked(check, &packet);
        }
        let on_link = packets::address(&settings().prefixes[0], 0, embedded);
        let packet = packets::solicitation(&mut check.random, &on_link, &[]);
        ends.asked(check, &packet);
    }
}

/// Every type of option with some lengths, alone and before and behind another, from an asker and from `::`; then with the last option cut
/// by some bytes, and with some too many.
fn option_kinds(check: &mut Check, ends: &mut Ends) {
    for (kind, units) in (0..=255).flat_map(|kind| [0, 1, 3].map(|units| (kind, units))) {
        let tried = packets::option(&mut check.random, kind, units, 0);
        let other = packets::option(&mut check.random, 14, 2, 0);
        for options in [tried.clone(), [&tried[..], &other].concat(), [&other[..], &tried].concat()] {
            for asker in [[0; 16], link_local(ASKER)] {
                let packet = packets::solicitation(&mut check.random, &asker, &options);
                ends.asked(check, &packet);
            }
        }
        let mut packet = packets::solicitation(&mut check.random, &link_local(ASKER), &tried);
        packet.extend([kind; 9]);
        let payload = packet.len() as u16 - 40 - 9;
        for change in [0, 1, 2, 8, 10, 16, 17, 18] {
            put16(&mut packet, 4, payload - 9 + change);
            packets::repair_icmpv6(&mut packet);
            ends.asked(check, &packet);
        }
    }
    // Nearly `::`, with a source link-layer address.
    let source = packets::option(&mut check.random, 1, 1, 0);
    for (at, bit) in (0..16).flat_map(|at| (0..8).map(move |bit| (at, bit))) {
        let mut asker = [0; 16];
        asker[at] = 1 << bit;
        let packet = packets::solicitation(&mut check.random, &asker, &source);
        ends.asked(check, &packet);
    }
}

/// Up to 40 options, with a source link-layer address in each place and in none, from an asker, from `::` and from an address that embeds
/// 0.0.0.0; the last whole, and of length 0.
fn option_counts(check: &mut Check, ends: &mut Ends) {
    for (count, units) in (1..=40).flat_map(|count| [1, 2].map(|units| (count, units))) {
        for source in 0..=count {
            let kind = |place| if place == source { 1 } else { 2 };
            let options: Vec<_> =
                (0..count).flat_map(|place| packets::option(&mut check.random, kind(place), units, 0)).collect();
            for asker in [[0; 16], link_local(ASKER), link_local(0)] {
                let mut packet = packets::solicitation(&mut check.random, &asker, &options);
                ends.asked(check, &packet);
                let last = packet.len() - 8 * usize::from(units);
                packet[last + 1] = 0;
                packets::repair_icmpv6(&mut packet);
                ends.asked(check, &packet);
            }
        }
    }
}

/// Each single byte changed in each way and each length, with the checksum as it was and put right; every payload length.
fn changed_solicitations(check: &mut Check, ends: &mut Ends) {
    let source = packets::option(&mut check.random, 1, 1, 0);
    for asker in [link_local(ASKER), [0; 16]] {
        let packet = packets::solicitation(&mut check.random, &asker, &source);
        changed(&packet, packet.len(), |mut tried| {
            ends.asked(check, &tried);
            packets::repair_icmpv6(&mut tried);
            ends.asked(check, &tried);
        });
        for payload in 0..=packet.len() as u16 {
            let mut tried = packet.clone();
            put16(&mut tried, 4, payload);
            packets::repair_icmpv6(&mut tried);
            ends.asked(check, &tried);
        }
    }
}

/// Each of up to eight locators, two of which share an address, and the numbers behind them.
fn locators(check: &mut Check) {
    let mut full = settings();
    full.locator_count = 8;
    for (place, locator) in full.locators.iter_mut().enumerate() {
        *locator = Locator { address: 0x0a00_0001 + 0x0102_0304 * (place as u32 / 2), interface: place as u8 };
    }
    let mut packet = packets::solicitation(&mut check.random, &link_local(ASKER), &[]);
    for count in 1..=8 {
        full.locator_count = count;
        let (writer, mut hearer) = (node(check, &full), advertised::hearer(check, &[full]));
        for number in (0..20).chain([255, 256, 1 << 16, 1 << 32, (1 << 32) + 1, usize::MAX]) {
            let advertised = counted(1, 3);
            if let Ok(written) = writer.advertise(check, &packet, number, &advertised, LONGEST) {
                advertised::heard(check, &mut hearer, full.locators[number].address, &advertised, &written, 0);
            }
        }
        // The destination is not looked at.
        put(&mut packet, 24, &check.random.bytes::<16>());
        packets::repair_icmpv6(&mut packet);
    }
}

/// Every choice of faults together: the first in the order of the numbers is given.
fn orders(check: &mut Check, ends: &Ends) {
    let numbers = [8, 11, 24, 25, 26, 15];
    for faults in 0..1u32 << numbers.len() {
        let there =
            |number| numbers.iter().position(|&one| one == number).is_some_and(|place| faults >> place & 1 == 1);
        let asker = if there(25) { [1; 16] } else { link_local(ASKER) };
        let mut packet = packets::solicitation(&mut check.random, &asker, &[]);
        packet[41] = there(24).into();
        packets::repair_icmpv6(&mut packet);
        packet.truncate(packet.len() - usize::from(there(8)));
        let advertised = counted(2, 8 + usize::from(there(26)));
        let room = if there(15) { 55 } else { LONGEST };
        let given = ends.writer.advertise(check, &packet, there(11).into(), &advertised, room);
        let first = numbers.into_iter().find(|&number| there(number));
        same("the first of the faults", &first, &given.err(), &|| format!("faults {faults:06b} of {numbers:?}"));
    }
}
