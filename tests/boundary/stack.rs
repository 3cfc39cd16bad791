//! The stack that each exported call needs on the worst inputs that one can think of: longest, most options, full tables. It is painted
//! below the call and looked through afterwards.

use crate::advertised;
use crate::packets;
use crate::plain::pieces::{Key, MEMORY, ROOM};
use crate::plain::rules::link_local;
use crate::random::Random;
use bogtrumpet::raw::{self, *};
use std::arch::asm;
use std::hint::black_box;
use std::ops::Range;

/// Bytes below the call that are painted; a call that needs more ends the program.
const PAINTED: usize = 3 << 20;
const PAINT: u8 = 0xa5;

const LOCATOR: u32 = 0x0a00_0001;
const NEIGHBOUR: u32 = 0x0a01_0001;
const ROUTER: u32 = 0x0a02_0001;
const PREFIX: [u8; 8] = [0x20, 0x01, 0x0d, 0xb8, 0, 0, 0, 7];
/// The options of an advertisement as long as one can be, and of a solicitation.
const OPTIONS: usize = 65_512;
const ASKED_OPTIONS: usize = 65_520;

/// The bytes of stack between here and the deepest place that the call wrote to: its own frames, its arguments and its answer.
#[inline(never)]
fn needed(call: &mut dyn FnMut()) -> usize {
    let here: usize;
    let first: usize;
    // SAFETY: the thread's stack reaches further down than what is painted, and nothing stands there while nothing is called.
    unsafe {
        asm!("mov {here}, rsp", "lea rdi, [rsp - {size}]", "rep stosb", here = out(reg) here, size = const PAINTED,
            inout("rcx") PAINTED => _, in("al") PAINT, out("rdi") _, options(nostack));
    }
    call();
    // SAFETY: only reads what was painted.
    unsafe {
        asm!("repe scasb", inout("rdi") here - PAINTED => first, inout("rcx") PAINTED => _, in("al") PAINT,
            options(nostack, readonly));
    }
    here - (first - 1)
}

/// What each call needed at most.
struct Needs(Vec<(&'static str, usize)>);

impl Needs {
    fn call<T>(&mut self, name: &'static str, mut call: impl FnMut() -> T) {
        let bytes = needed(&mut || _ = black_box(&call()));
        match self.0.iter_mut().find(|(known, _)| *known == name) {
            Some((_, most)) => *most = bytes.max(*most),
            None => self.0.push((name, bytes)),
        }
    }
}

/// One line for each call, and whether all keep to the limit.
pub fn stack(limit: usize) -> bool {
    let thread = std::thread::Builder::new().stack_size(PAINTED + (1 << 20));
    let needs = thread.spawn(all).expect("a thread").join().expect("the calls");
    for (name, bytes) in &needs.0 {
        println!("bogtrumpet_{name} needs {bytes} bytes of stack{}", if *bytes > limit { ", too much" } else { "" });
    }
    println!("at most {} of {limit}", needs.0.iter().map(|(_, bytes)| bytes).max().expect("some calls"));
    needs.0.iter().all(|(_, bytes)| *bytes <= limit)
}

fn all() -> Needs {
    let (mut needs, mut random) = (Needs(Vec::new()), Random::new(1));
    let [first, second] = [settings(0), settings(1)];
    needs.call("defaults", || first.defaults());
    let mut node = Node::EMPTY;
    needs.call("new", || node.set_up(Settings { ttl: 0, ..first }));
    needs.call("new", || node.set_up(first));
    needs.call("new_pair", || node.set_up_pair(first, Settings { ttl: 0, ..second }));
    needs.call("new_pair", || node.set_up_pair(first, Settings { locators: first.locators, ..second }));
    needs.call("new_pair", || node.set_up_pair(first, second));
    for neighbour in 0..64 {
        let message = packets::size_report(&mut random, 1400, 1500, (LOCATOR, NEIGHBOUR + neighbour), 0, 8);
        assert_eq!(node.report(&message, 1000).number, 0);
    }
    for service in [0, 1] {
        receiving(&mut needs, &mut random, node, service);
        joining(&mut needs, &mut random, node, service);
        sending(&mut needs, &mut random, node, service);
        reports(&mut needs, &mut random, node, service);
        routers(&mut needs, &mut random, node, service);
        advertising(&mut needs, &mut random, &node, service);
    }
    absent(&mut needs, node);
    rules(&mut needs, &mut random);
    needs
}

/// Calls of a service that no node has.
fn absent(needs: &mut Needs, mut node: Node) {
    let (list, none) = (Addresses { routers: [0; 16], count: 0 }, Advertisement::default());
    needs.call("receive", || node.receive(2, &[], 0, 0, &mut []));
    needs.call("send", || node.send(2, &[], Address { bytes: [0; 16] }, 0, 0, &mut []));
    needs.call("path_size", || node.path_size(2, 0));
    needs.call("replace_routers", || node.replace_routers(2, list, 0));
    needs.call("ask", || node.ask(2, 0, 0, &mut []));
    needs.call("hear", || node.hear(2, &[], 0));
    needs.call("advertise", || node.advertise(2, &[], 0, none, &mut []));
}

/// The last locator of the service.
fn last_locator(service: u8) -> u32 {
    settings(service).locators[7].address
}

/// As many of everything as there can be.
fn settings(service: u8) -> Settings {
    let mut settings = Settings { locator_count: 8, prefix_count: 8, router_count: 16, ..Settings::EMPTY };
    for (place, locator) in settings.locators.iter_mut().enumerate() {
        *locator = Locator { address: LOCATOR + 8 * u32::from(service) + place as u32, interface: place as u8 };
    }
    for (place, prefix) in settings.prefixes.chunks_exact_mut(8).enumerate() {
        prefix.copy_from_slice(&PREFIX);
        prefix[7] = place as u8;
    }
    for (place, router) in settings.routers.iter_mut().enumerate() {
        *router = ROUTER + place as u32;
    }
    Settings { link_size: 9216, ..settings.defaults() }
}

/// Sources of every kind: by the last prefix, a listed router's, one that is refused at the end of all lists.
fn receiving(needs: &mut Needs, random: &mut Random, mut node: Node, service: u8) {
    let mut memory = vec![0; MEMORY];
    for source in [NEIGHBOUR, ROUTER + 15, NEIGHBOUR + 1, 0x7f00_0001] {
        for (length, words) in [(40, 0), (65_475, 10), (65_515, 0)] {
            let inner = packets::packet(random, length, 58, &packets::address(&PREFIX, 2, NEIGHBOUR));
            let mut datagram = packets::datagram(random, (source, last_locator(service)), words, &inner, 70_000);
            for _ in 0..2 {
                needs.call("receive", || node.receive(service, &datagram, 7, 1001, &mut memory));
                needs.call("receive", || node.receive(service, &datagram, 7, 1001, &mut []));
                needs.call("read_outer", || raw::read_outer(&datagram));
                needs.call("unwrap", || raw::unwrap(&datagram));
                datagram[10] ^= 1;
            }
        }
    }
}

/// Datagrams that the last prefix admits, the last router, and neither, in pieces of each length.
fn joining(needs: &mut Needs, random: &mut Random, start: Node, service: u8) {
    for source in [NEIGHBOUR, ROUTER + 15, NEIGHBOUR + 1] {
        for step in [8, 64, 1024] {
            joining_by(needs, random, start, service, source, step);
        }
    }
}

/// Eight datagrams of the longest payload in pieces of that length, and a ninth that finds no place; at both ends each piece twice; then one
/// that overlaps, one that is unfit, and the last pieces.
fn joining_by(needs: &mut Needs, random: &mut Random, mut node: Node, service: u8, source: u32, step: usize) {
    let (mut memory, destination) = (vec![0; MEMORY], last_locator(service));
    let payload = packets::packet(random, ROOM, 58, &packets::address(&PREFIX, 2, NEIGHBOUR));
    let mut receive = |identification: u16, bytes: Range<usize>| {
        let key = Key { source, destination, identification, protocol: 41 };
        let piece = packets::piece(random, &key, bytes.start / 8, bytes.end < ROOM, &payload[bytes.clone()]);
        if (2 * step..ROOM - 2 * step).contains(&bytes.start) {
            // Painting takes its time, and the pieces between are like the others.
            _ = node.receive(service, &piece, 7, 1001, &mut memory);
        } else {
            (0..2).for_each(|_| needs.call("receive", || node.receive(service, &piece, 7, 1001, &mut memory)));
        }
    };
    for at in (0..ROOM - step).step_by(step) {
        (0..9).for_each(|identification| receive(identification, at..at + step));
    }
    receive(0, 8..ROOM);
    receive(1, 8..15);
    (1..8).for_each(|identification| receive(identification, ROOM - step..ROOM));
}

fn sending(needs: &mut Needs, random: &mut Random, start: Node, service: u8) {
    let mut out = vec![0; 70_000];
    for neighbour in [NEIGHBOUR, NEIGHBOUR + 63, NEIGHBOUR + 64, last_locator(service)] {
        let next_hop = Address { bytes: packets::address(&PREFIX, 2, neighbour) };
        for length in [40, 1380, 1381, 9196, 9197, 65_575] {
            for source in [link_local(LOCATOR), [0; 16]] {
                let packet = packets::packet(random, length, 58, &source);
                for room in [0, 70_000] {
                    let mut node = start;
                    needs.call("send", || node.send(service, &packet, next_hop, 7, 1001, &mut out[..room]));
                    needs.call("send", || node.send(service, &packet, next_hop, 8, 1601, &mut out[..room]));
                }
            }
        }
        needs.call("path_size", || start.path_size(service, neighbour));
    }
    chains(needs, random, start, service);
}

/// The longest packet with as many extension headers as there can be: up to an error, up to what draws a message, and past the end.
fn chains(needs: &mut Needs, random: &mut Random, start: Node, service: u8) {
    let next_hop = Address { bytes: packets::address(&PREFIX, 2, NEIGHBOUR) };
    let mut out = vec![0; 1280];
    for turns in packets::TURNS {
        let headers = packets::shortest(turns, packets::MOST_EXTENSIONS);
        for (upper, kind, drawn) in [(58, 1, 0), (58, 128, 1280), (6, 1, 1280), (0, 6, 0), (44, 6, 0)] {
            let mut packet = packets::packet(random, 65_575, 0, &link_local(NEIGHBOUR));
            packets::put_chain(&mut packet, &headers, upper, &[kind]);
            let mut node = start;
            let sent = node.send(service, &packet, next_hop, 7, 1001, &mut out);
            assert_eq!((sent.number, sent.message_length), (14, drawn), "all headers are followed");
            for room in [0, 1280] {
                needs.call("send", || node.send(service, &packet, next_hop, 7, 1001, &mut out[..room]));
            }
        }
    }
}

fn reports(needs: &mut Needs, random: &mut Random, start: Node, service: u8) {
    let locator = last_locator(service);
    for neighbour in [NEIGHBOUR, NEIGHBOUR + 63, NEIGHBOUR + 64, locator] {
        for size in [0, 67, 68, 1399, 1400] {
            for (words, rest) in [(0, 0), (10, 65_467), (10, 139_000)] {
                let mut message = packets::size_report(random, size, 69, (locator, neighbour), words, rest);
                let mut node = start;
                needs.call("report", || node.report(&message, 1001));
                message[2] ^= 1;
                needs.call("report", || node.report(&message, 1002));
            }
        }
    }
}

fn routers(needs: &mut Needs, random: &mut Random, start: Node, service: u8) {
    let mut out = [0; 48];
    let mut list = Addresses { routers: settings(service).routers, count: 16 };
    list.routers.reverse();
    for first in [ROUTER + 15, ROUTER + 40, last_locator(service)] {
        list.routers[0] = first;
        let mut node = start;
        needs.call("replace_routers", || node.replace_routers(service, list, 1001));
    }
    let mut node = start;
    for _ in 0..17 {
        needs.call("ask", || node.ask(service, 7, 1001, &mut out));
        needs.call("ask", || node.ask(service, 7, 1001, &mut []));
    }
    for router in [ROUTER + 15, NEIGHBOUR] {
        for (kind, units) in KINDS {
            let options = options(random, kind, units, OPTIONS);
            let packet = packets::advertisement(random, &link_local(router), 1800, &options);
            advertisements(needs, &packet, start, service);
        }
    }
}

/// Types of options and their lengths, to fill a message with.
const KINDS: [(u8, usize); 5] = [(1, 1), (24, 1), (24, 3), (3, 4), (5, 255)];

/// Options of one type, of that length as long as it fits, and together of the size.
fn options(random: &mut Random, kind: u8, units: usize, size: usize) -> Vec<u8> {
    let mut options = Vec::new();
    while options.len() < size {
        let units = units.min((size - options.len()) / 8);
        options.extend(packets::option(random, kind, units as u8, 4000));
    }
    options
}

/// The longest advertisement as it is, and with each thing wrong that is judged before or behind its options.
fn advertisements(needs: &mut Needs, packet: &[u8], start: Node, service: u8) {
    let mut node = start;
    let number = node.hear(service, packet, 1001).number;
    assert!(packet.len() == 65_568 && matches!(number, 0 | 21), "the longest, and valid");
    let last = packet.len() - 7;
    for (at, value) in [(0, 0x60), (0, 0x40), (6, 59), (7, 64), (8, 0x20), (41, 1), (last, 0), (57, 0), (42, 0)] {
        for repaired in [true, false] {
            let (mut packet, mut node) = (packet.to_vec(), start);
            packet[at] = value;
            if repaired {
                packets::repair_icmpv6(&mut packet);
            }
            needs.call("hear", || node.hear(service, &packet, 1001));
        }
    }
}

/// As much as there can be, to the longest solicitations, from an asker and from `::`, and to the longest packet; as they are, and with
/// each thing wrong that is judged before or behind their options.
fn advertising(needs: &mut Needs, random: &mut Random, node: &Node, service: u8) {
    let mut full = advertised::any(random);
    (full.prefix_count, full.route_count) = (8, 8);
    for place in 0..8 {
        (full.prefixes[place].length, full.routes[place].length) = (127, 65 + 9 * place as u8);
    }
    let mut out = [0; advertised::LONGEST];
    for (kind, units) in KINDS {
        for (source, surplus) in [(link_local(NEIGHBOUR), 0), ([0; 16], 0), (link_local(NEIGHBOUR), 7)] {
            let mut options = options(random, kind, units, ASKED_OPTIONS);
            options.resize(ASKED_OPTIONS + surplus, kind);
            let packet = packets::solicitation(random, &source, &options);
            let number = node.advertise(service, &packet, 7, full, &mut out).number;
            assert!(number == 0 || surplus > 0 || source == [0; 16], "the longest that is answered");
            let last = packet.len() - surplus - 7;
            for (at, value) in [(0, 0x60), (0, 0x40), (6, 59), (7, 64), (8, 0x20), (41, 1), (last, 0), (49, 0), (42, 0)]
            {
                let mut packet = packet.clone();
                packet[at] = value;
                needs.call("advertise", || node.advertise(service, &packet, 7, full, &mut out));
                packets::repair_icmpv6(&mut packet);
                needs.call("advertise", || node.advertise(service, &packet, 7, full, &mut out));
            }
            for advertised in [full, Advertisement { route_count: 9, ..full }, Advertisement::default()] {
                for (locator, room) in [(7, 0), (7, advertised::LONGEST - 1), (8, 0)] {
                    needs.call("advertise", || node.advertise(service, &packet, locator, advertised, &mut out[..room]));
                }
            }
        }
    }
}

fn rules(needs: &mut Needs, random: &mut Random) {
    let (mut bytes, mut out) = (vec![0; 140_000], vec![0; 140_000]);
    random.fill(&mut bytes);
    let outer =
        Outer { identification: 1, dont_fragment: 1, ttl: 64, protocol: 41, source: LOCATOR, destination: NEIGHBOUR };
    let prefixes = Prefixes { bytes: settings(0).prefixes, count: 8 };
    for length in [0, 1, 20, 39, 40, 1232, 1500, 65_515, 65_516, 140_000] {
        let bytes = &bytes[..length];
        needs.call("checksum", || raw::checksum(u32::MAX, bytes));
        needs.call("checksum_right", || raw::checksum_right(bytes));
        for room in [0, 140_000] {
            let out = &mut out[..room];
            needs.call("wrap", || raw::wrap(outer, bytes, out));
            needs.call("too_big", || raw::too_big(Address { bytes: [1; 16] }, 1280, bytes, out));
            needs.call("solicitation", || raw::solicitation(LOCATOR, ROUTER, out));
        }
    }
    comparing(needs);
    for address in packets::EDGES.into_iter().chain([NEIGHBOUR]) {
        needs.call("forbidden", || raw::forbidden(address));
        needs.call("link_local", || raw::link_local(address));
        for prefix in [PREFIX, [0; 8], [0xff; 8]] {
            let full = Address { bytes: packets::address(&prefix, 2, address) };
            needs.call("isatap", || raw::isatap(prefixes, full));
            needs.call("bad_source", || raw::bad_source(full));
        }
        let mut compatible = [0; 16];
        packets::put32(&mut compatible, 12, address);
        needs.call("bad_source", || raw::bad_source(Address { bytes: compatible }));
    }
}

/// The longest datagrams, with no run, with one and with as many as there can be, and many datagrams.
fn comparing(needs: &mut Needs) {
    let mut one = [&[0, 1, 0, 0xff, 0xff][..], &[0; 65_535]].concat();
    let (same, mut out) = (one.clone(), vec![0; 200_000]);
    let many = [&[0xff, 0xff][..], &[0; 3 * 65_535]].concat();
    for step in [65_536, 65_535, 2, 1] {
        one[5..].iter_mut().step_by(step).for_each(|byte| *byte ^= 1);
        for (masked, room) in [(false, 0), (true, 0), (false, 200_000), (true, 200_000)] {
            let out = &mut out[..room];
            needs.call("compare", || raw::compare(masked, &same, &one, out));
            needs.call("compare", || raw::compare(masked, &many, &many, out));
            needs.call("compare", || raw::compare(masked, &one[1..], &many, out));
        }
    }
}
