//! The edges of extension headers (R25) in packets that are too big: what stands behind them, how long each is, where they end, the offset
//! of a fragment, and how many there are, each with whether it must draw a message; and every byte of a chain changed.

use crate::check::{hex, same, Check};
use crate::edges::{node, report, settings, NEIGHBOUR, SOURCE};
use crate::nodes::Nodes;
use crate::packets::{self, chain_end, lengthen, put_chain, shortest, Extension};
use crate::packets::{EXTENSIONS, FRAGMENT, MOST_EXTENSIONS, TURNS};
use crate::plain::rules::link_local;
use crate::plain::Address;

const ICMPV6: u8 = 58;
const ERROR: u8 = 1;
const ECHO: u8 = 128;
const REDIRECT: u8 = 137;
/// Types of ICMPv6 about the edges.
const KINDS: [u8; 14] = [0, ERROR, 2, 126, 127, ECHO, 129, 133, 134, 135, 136, REDIRECT, 138, 255];
/// Upper layers that are not looked into.
const OTHERS: [u8; 5] = [6, 17, 50, 51, 59];
/// The longest packet.
const LONGEST: usize = 65_575;
const LOOPBACK: Address = [0, 0, 0, 0, 0, 0, 0, 0, 0, 0, 0, 0, 0, 0, 0, 1];
const ALL_NODES: Address = [0xff, 2, 0, 0, 0, 0, 0, 0, 0, 0, 0, 0, 0, 0, 0, 1];

pub fn edges(check: &mut Check) {
    // By the link size, and by a report.
    for (link_size, reported) in [(1500, None), (9216, None), (9216, Some(1400))] {
        let mut set = settings();
        set.link_size = link_size;
        let mut nodes = node(check, &set);
        if let Some(size) = reported {
            let message = report(&mut check.random, size, NEIGHBOUR);
            nodes.report(check, &message, 0);
        }
        let sender = &mut Sender { limit: nodes.limit(NEIGHBOUR), nodes };
        kinds(check, sender);
        lengths(check, sender);
        ends(check, sender);
        cut_off(check, sender);
        fragments(check, sender);
        counts(check, sender);
        longest(check, sender);
        sources(check, sender);
        passing(check, sender);
        changed(check, sender);
    }
}

/// A node, and the largest packet that passes.
struct Sender {
    nodes: Nodes,
    limit: usize,
}

impl Sender {
    /// The packet must draw a message where there is room for one, or must draw none.
    fn sends(&mut self, check: &mut Check, packet: &[u8], drawn: bool) {
        for room in [0, 1279, 1280, 1400] {
            let given = self.nodes.send(check, packet, link_local(NEIGHBOUR), 0, 0, room);
            let expected = if drawn && room < 1280 { 15 } else { 14 };
            same("number", &expected, &given, &|| format!("room {room} for {}", hex(packet)));
        }
    }

    /// The same of a packet of that length, or of the first that is too big. Bytes that are not to be looked at would decide otherwise.
    fn chain(&mut self, check: &mut Check, length: usize, headers: &[Extension], upper: (u8, &[u8]), drawn: bool) {
        let length = length.max(self.limit + 1);
        let mut packet = packets::packet(&mut check.random, length, 0, &SOURCE);
        packet[40..].fill(if drawn { 0 } else { ECHO });
        put_chain(&mut packet, headers, upper.0, upper.1);
        self.sends(check, &packet, drawn);
    }

    /// The same with some bytes behind the first one of the upper layer.
    fn behind(&mut self, check: &mut Check, headers: &[Extension], upper: u8, first: u8, drawn: bool) {
        self.chain(check, chain_end(headers) + 4, headers, (upper, &[first]), drawn);
    }
}

/// Up to four headers, in every order, also one of them several times.
fn sequences() -> Vec<Vec<Extension>> {
    let mut all = vec![Vec::new()];
    let mut last = all.clone();
    for _ in 0..4 {
        let longer = |front: &Vec<_>| EXTENSIONS.map(|number| [&front[..], &[Extension::new(number)]].concat());
        last = last.iter().flat_map(longer).collect();
        all.extend(last.clone());
    }
    all
}

fn kinds(check: &mut Check, sender: &mut Sender) {
    for headers in sequences() {
        for kind in KINDS {
            sender.behind(check, &headers, ICMPV6, kind, kind >= 128 && kind != REDIRECT);
        }
        for upper in OTHERS {
            sender.behind(check, &headers, upper, ERROR, true);
        }
    }
}

/// Each header with each second byte, which makes no fragment longer.
fn lengths(check: &mut Check, sender: &mut Sender) {
    for number in EXTENSIONS {
        for second in 0..=255 {
            let header = Extension { second, ..Extension::new(number) };
            sender.behind(check, &[header], ICMPV6, ERROR, false);
            sender.behind(check, &[header], ICMPV6, ECHO, true);
            sender.behind(check, &[header, Extension::new(60)], ICMPV6, ECHO, true);
        }
    }
}

/// Each of the shortest headers, and two longer ones.
fn last_headers() -> Vec<Extension> {
    let longer = [(60, 1), (0, 255)].map(|(number, second)| Extension { second, ..Extension::new(number) });
    EXTENSIONS.into_iter().map(Extension::new).chain(longer).collect()
}

/// The headers of a packet with this last one, before which it is too big already, and where they end.
fn with_last(sender: &Sender, last: Extension) -> (Vec<Extension>, usize) {
    let mut headers = Vec::new();
    lengthen(&mut headers, 43, sender.limit / 8 * 8 + 8);
    headers.push(last);
    let end = chain_end(&headers);
    (headers, end)
}

/// The last header ends where the packet does, or a byte before.
fn ends(check: &mut Check, sender: &mut Sender) {
    for last in last_headers() {
        let (headers, end) = with_last(sender, last);
        for upper in 0..=255 {
            let other = upper != ICMPV6 && !EXTENSIONS.contains(&upper);
            sender.chain(check, end, &headers, (upper, &[]), other);
            sender.chain(check, end + 1, &headers, (upper, &[ERROR]), other);
        }
        for kind in KINDS {
            sender.chain(check, end + 1, &headers, (ICMPV6, &[kind]), kind >= 128 && kind != REDIRECT);
        }
    }
}

/// The last header has too few bytes, or none: it would start where the packet ends.
fn cut_off(check: &mut Check, sender: &mut Sender) {
    for last in last_headers() {
        let (headers, end) = with_last(sender, last);
        let length = last.length();
        for missing in (1..=8).chain([length - 7, length - 1, length]) {
            for upper in OTHERS.into_iter().chain([ICMPV6]) {
                sender.chain(check, end - missing, &headers, (upper, &[]), false);
            }
        }
    }
}

/// A fragment's offset and the three bits behind it, one by one and together, with second bytes of all kinds; before and behind others.
fn fragments(check: &mut Check, sender: &mut Sender) {
    let [hop, routing, fragment, options] = EXTENSIONS.map(Extension::new);
    let fields = (0..16).map(|bit| 1 << bit).chain([0, 3, 5, 6, 7, 9, 0x0107, 0xfff8, 0xffff]);
    for (field, second) in fields.flat_map(|field| [0, 7, 255].map(|second| (field, second))) {
        let (tried, first) = (Extension { number: FRAGMENT, second, field }, field < 8);
        let chains = [&[tried][..], &[hop, routing, tried], &[tried, options], &[fragment, tried], &[tried, fragment]];
        for headers in chains {
            sender.behind(check, headers, ICMPV6, ECHO, first);
            sender.behind(check, headers, ICMPV6, ERROR, false);
            sender.behind(check, headers, 6, ERROR, first);
        }
        // The same bits mean nothing in another header.
        for header in [hop, routing, options] {
            sender.behind(check, &[Extension { field, ..header }], ICMPV6, ECHO, true);
        }
    }
}

/// From none to nearly as many as there can be, all of the shortest.
fn counts(check: &mut Check, sender: &mut Sender) {
    for count in (0..=150).chain([255, 256, 257, 1000, 1148, 1149, 4095, 4096, 8190]) {
        for turns in TURNS {
            let headers = shortest(turns, count);
            for (upper, first, drawn) in [(ICMPV6, ERROR, false), (ICMPV6, ECHO, true), (6, ERROR, true)] {
                sender.behind(check, &headers, upper, first, drawn);
            }
        }
    }
}

/// As many headers as there can be, which leave 7 bytes of the longest packet.
fn longest(check: &mut Check, sender: &mut Sender) {
    for turns in TURNS {
        let headers = shortest(turns, MOST_EXTENSIONS);
        let end = chain_end(&headers);
        for upper in OTHERS {
            sender.chain(check, LONGEST, &headers, (upper, &[ERROR]), true);
            sender.chain(check, end, &headers, (upper, &[]), true);
            sender.chain(check, end - 1, &headers, (upper, &[]), false);
        }
        for kind in [ERROR, ECHO, REDIRECT] {
            sender.chain(check, LONGEST, &headers, (ICMPV6, &[kind]), kind == ECHO);
        }
        for upper in EXTENSIONS.into_iter().chain([ICMPV6]) {
            sender.chain(check, end, &headers, (upper, &[]), false);
        }
        for upper in EXTENSIONS {
            sender.chain(check, LONGEST, &headers, (upper, &[6, 0, 0, 0]), false);
        }
    }
}

/// Sources that are no host draw nothing, whatever stands behind.
fn sources(check: &mut Check, sender: &mut Sender) {
    let sources = [(SOURCE, true), (LOOPBACK, true), ([0; 16], false), (ALL_NODES, false)];
    for (source, host) in sources {
        for headers in [vec![], shortest(EXTENSIONS, 1), shortest(EXTENSIONS, 4)] {
            for (upper, kind, drawn) in [(ICMPV6, ERROR, false), (ICMPV6, ECHO, true), (17, ERROR, true)] {
                let mut packet = packets::packet(&mut check.random, sender.limit + 1, 0, &source);
                put_chain(&mut packet, &headers, upper, &[kind]);
                sender.sends(check, &packet, drawn && host);
            }
        }
    }
}

/// What passes is wrapped, whatever its headers are.
fn passing(check: &mut Check, sender: &mut Sender) {
    for (second, upper) in [(0, ICMPV6), (255, 60), (0, FRAGMENT), (3, 6)] {
        for number in EXTENSIONS {
            let header = Extension { number, second, field: 8 };
            for length in [41, 47, 48, 49, sender.limit] {
                let mut packet = packets::packet(&mut check.random, length, 0, &SOURCE);
                put_chain(&mut packet, &[header], upper, &[ERROR]);
                let given = sender.nodes.send(check, &packet, link_local(NEIGHBOUR), 0, 0, length + 20);
                same("number", &0, &given, &|| hex(&packet));
            }
        }
    }
}

/// Each byte from the first number to the type behind two headers, changed in each way.
fn changed(check: &mut Check, sender: &mut Sender) {
    for headers in [[60, FRAGMENT], [FRAGMENT, 0], [43, 43]].map(|numbers| numbers.map(Extension::new)) {
        let mut packet = packets::packet(&mut check.random, sender.limit + 1, 0, &SOURCE);
        put_chain(&mut packet, &headers, ICMPV6, &[ECHO]);
        for at in (6..7).chain(40..=56) {
            for value in 0..=255 {
                let mut tried = packet.clone();
                tried[at] = value;
                for room in [1279, 1280] {
                    sender.nodes.send(check, &tried, link_local(NEIGHBOUR), 0, 0, room);
                }
            }
        }
    }
}
