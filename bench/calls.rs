//! The rows of a node's calls: what each is given, turn by turn.

use crate::check::Check;
use crate::nodes::Nodes;
use crate::packets::{address, advertisement, datagram, option, packet, put, put16, put32, put_chain, shortest};
use crate::packets::{repair_outer, size_report, solicitation, EXTENSIONS, MOST_EXTENSIONS};
use crate::plain::rules::link_local;
use crate::plain::Address;
use crate::shape::{nodes, nodes_of_two, prefix, KEPT, OTHER, OWN, OWNS, ROUTER};
use crate::work::{work, Advertised, Call, Work, INTERFACE, START};
use bogtrumpet::raw::{AdvertisedPrefix, AdvertisedRoute, Advertisement};

/// Four sources that pass: by fe80::/64, by either prefix, and a listed router's.
fn passing(turn: u32) -> (u32, Address) {
    let neighbour = OTHER + turn;
    match turn {
        0 => (neighbour, link_local(neighbour)),
        1 | 2 => (neighbour, address(&prefix(turn as u8 - 1), 0, neighbour)),
        _ => (ROUTER + 2, address(&[0x20, 2, 0, 0, 0, 0, 0, 0], 0, 1)),
    }
}

/// A datagram that is delivered to the service.
fn delivered(check: &mut Check, service: u8, turn: u32, length: usize) -> Vec<u8> {
    let (neighbour, source) = passing(turn);
    let inner = packet(&mut check.random, length, 17, &source);
    datagram(&mut check.random, (neighbour, OWNS[usize::from(service)]), 0, &inner, 0)
}

/// A datagram of 64 bytes with one thing wrong, so that it is refused by the number.
fn refused(check: &mut Check, turn: u32, number: u8) -> Vec<u8> {
    let mut d = delivered(check, 0, turn, 64);
    match number {
        2 => put16(&mut d, 2, 85),
        3 => d[8] ^= 1,
        4 => d[9] = 17,
        6 => put32(&mut d, 16, OWN + 1),
        7 => put32(&mut d, 12, 0x7f00_0001 + turn),
        8 => put16(&mut d, 24, 25),
        9 => put(&mut d, 28, &[0xff, 2]),
        _ => put32(&mut d, 12, OTHER + 10 + turn),
    }
    if number != 3 {
        repair_outer(&mut d);
    }
    d
}

/// How a row says which service of a node of two it names.
fn of_two(service: u8) -> &'static str {
    ["first of two", "second of two"][usize::from(service)]
}

fn receives(check: &mut Check) -> Vec<Work> {
    let mut works = Vec::new();
    for length in [64, 1280] {
        let nodes = nodes(check, 0);
        let name = format!("receive {length}");
        works.push(work(name, Call::Receive, 0, nodes, |turn| delivered(check, 0, turn, length)));
    }
    for (length, service) in [64, 1280].into_iter().flat_map(|length| [0, 1].map(|service| (length, service))) {
        let nodes = nodes_of_two(check, 0, service);
        let name = format!("receive {length}, {}", of_two(service));
        works.push(work(name, Call::Receive, 0, nodes, |turn| delivered(check, service, turn, length)));
    }
    for number in [2, 3, 4, 6, 7, 8, 9, 10] {
        let nodes = nodes(check, 0);
        let name = format!("receive, refused by {number}");
        works.push(work(name, Call::Receive, number, nodes, |turn| refused(check, turn, number)));
    }
    works
}

/// The pieces, of these lengths, of a datagram that is delivered.
fn cut(check: &mut Check, turn: u32, lengths: &[usize]) -> Vec<Vec<u8>> {
    let (source, inner_source) = passing(turn);
    let payload = packet(&mut check.random, lengths.iter().sum(), 17, &inner_source);
    let mut at = 0;
    let mut pieces = Vec::new();
    for length in lengths {
        let end = at + length;
        let mut piece = datagram(&mut check.random, (source, OWN), 0, &payload[at..end], 0);
        put16(&mut piece, 4, turn as u16);
        put16(&mut piece, 6, (at / 8) as u16 | u16::from(end < payload.len()) << 13);
        repair_outer(&mut piece);
        pieces.push(piece);
        at = end;
    }
    pieces
}

/// The numbered piece of each of four datagrams that are cut so, of which so many pieces have come.
fn piece(check: &mut Check, name: &str, lengths: &[usize], come: usize, next: usize) -> Work {
    let mut nodes = nodes(check, 0);
    let cuttings = [0, 1, 2, 3].map(|turn| cut(check, turn, lengths));
    for piece in cuttings.iter().flat_map(|pieces| &pieces[..come]) {
        assert_eq!(nodes.receive(check, piece, INTERFACE, START), Err(27));
    }
    let (call, number) = if next + 1 == lengths.len() { (Call::Last, 0) } else { (Call::Piece, 27) };
    work(name.into(), call, number, nodes, |turn| cuttings[turn as usize][next].clone())
}

/// A first piece, whose key comes again when its last datagram is 32 s old; one that has come already; such as complete their datagram.
fn pieces(check: &mut Check) -> Vec<Work> {
    let mut first = piece(check, "piece 512, first of two", &[512, 512], 0, 0);
    first.step = 8;
    let nine = [56, 56, 56, 56, 56, 56, 56, 56, 52];
    vec![
        first,
        piece(check, "piece 512, come already", &[512, 512], 1, 0),
        piece(check, "piece 512, last of two", &[512, 512], 1, 1),
        piece(check, "piece 28 behind 1472", &[1472, 28], 1, 1),
        piece(check, "piece 52, last of nine", &nine, 8, 8),
    ]
}

/// Four packets to a next hop that a full path table keeps.
fn send(check: &mut Check, name: String, length: usize, nodes: Nodes) -> Work {
    let source = link_local(OWN);
    work(name, Call::Send, 0, nodes, |_| packet(&mut check.random, length, 17, &source))
}

fn sends(check: &mut Check) -> Vec<Work> {
    let mut works = Vec::new();
    for (length, kept) in [64, 576, 1280, 1480].into_iter().flat_map(|length| [0, 64].map(|kept| (length, kept))) {
        let nodes = nodes(check, kept);
        works.push(send(check, format!("send {length}, {kept} kept"), length, nodes));
    }
    // With 64 kept.
    for (length, service) in [64, 1480].into_iter().flat_map(|length| [0, 1].map(|service| (length, service))) {
        let nodes = nodes_of_two(check, 64, service);
        works.push(send(check, format!("send {length}, {}", of_two(service)), length, nodes));
    }
    let nodes = nodes(check, 64);
    let mut too_big = send(check, "send 1500, Too Big".into(), 1500, nodes);
    too_big.number = 14;
    works.push(too_big);
    works.extend([behind(check, 1500, 4), behind(check, 40 + 8 * MOST_EXTENSIONS + 1, MOST_EXTENSIONS)]);
    works
}

/// Four packets that are too big, each an ICMPv6 error behind so many extension headers of 8 bytes, the four in turn.
fn behind(check: &mut Check, length: usize, count: usize) -> Work {
    let nodes = nodes(check, 64);
    let source = link_local(OWN);
    work(format!("send, behind {count} headers"), Call::Send, 14, nodes, |_| {
        let mut packet = packet(&mut check.random, length, 0, &source);
        put_chain(&mut packet, &shortest(EXTENSIONS, count), 58, &[1]);
        packet
    })
}

/// Reports about four neighbours that the path table keeps, which would all be too old if it were not for the refusal.
fn reports(check: &mut Check) -> Vec<Work> {
    let mut works = Vec::new();
    for (number, size, own) in [(0, 1400, OWN), (16, 1400, OWN), (17, 1400, OTHER), (18, 67, OWN), (19, 9000, OWN)] {
        let nodes = nodes(check, 64);
        let name = if number == 0 { "report".into() } else { format!("report, refused by {number}") };
        let mut work = work(name, Call::Report, number, nodes, |turn| {
            let mut message = size_report(&mut check.random, size, 1500, (own, KEPT + 15 * turn), 0, 8);
            message[2] ^= u8::from(number == 16);
            message
        });
        work.step = 150;
        works.push(work);
    }
    works
}

/// Interval 1, so a router is due in every second.
fn ask(check: &mut Check) -> Work {
    let mut ask = work("ask".into(), Call::Ask, 0, nodes(check, 0), |_| Vec::new());
    ask.step = 1;
    ask
}

fn hears(check: &mut Check) -> Vec<Work> {
    let mut works = Vec::new();
    for number in [0, 20, 21] {
        let nodes = nodes(check, 0);
        let name = if number == 0 { "advertisement".into() } else { format!("advertisement, refused by {number}") };
        works.push(work(name, Call::Hear, number, nodes, |turn| {
            let router = if number == 21 { OTHER + turn } else { ROUTER + turn };
            let options = [option(&mut check.random, 3, 4, 3600), option(&mut check.random, 1, 1, 0)].concat();
            let mut packet = advertisement(&mut check.random, &link_local(router), 1800, &options);
            packet[42] ^= u8::from(number == 20);
            packet
        }));
    }
    let nodes = nodes(check, 0);
    works.push(work("hear 1480, no advertisement".into(), Call::Hear, 20, nodes, |turn| {
        packet(&mut check.random, 1480, 17, &link_local(ROUTER + turn))
    }));
    works
}

/// Lengths of the prefixes of eight routes, for options of each length.
const ROUTES: [u8; 8] = [0, 16, 32, 48, 56, 64, 96, 128];

/// So many prefixes of 64 bits and so many routes.
fn advertised(count: usize) -> Advertisement {
    let mut advertised = Advertisement {
        prefix_count: count,
        route_count: count,
        lifetime: 1800,
        managed: 1,
        ..Advertisement::default()
    };
    for (place, advertised) in advertised.prefixes.iter_mut().enumerate() {
        let bytes = address(&prefix(place as u8 % 2), 0, OTHER + place as u32);
        *advertised = AdvertisedPrefix { bytes, valid: 7200, preferred: 3600, length: 64, on_link: 1, autonomous: 1 };
    }
    for (place, route) in advertised.routes.iter_mut().enumerate() {
        let bytes = address(&prefix(place as u8 % 2), 0, OTHER + place as u32);
        *route = AdvertisedRoute { bytes, lifetime: 7200, length: ROUTES[place], preference: place as u8 % 3 };
    }
    advertised
}

/// Solicitations without an option, from four askers.
fn advertises(check: &mut Check) -> Vec<Work> {
    let mut works = Vec::new();
    for (name, count) in [("advertise, no options", 0), ("advertise, 8 + 8 options", 8)] {
        let nodes = nodes(check, 0);
        let mut work = work(name.into(), Call::Advertise, 0, nodes, |turn| {
            solicitation(&mut check.random, &link_local(OTHER + turn), &[])
        });
        work.advertised = Advertised::new(advertised(count));
        works.push(work);
    }
    works
}

pub fn works(check: &mut Check) -> Vec<Work> {
    let mut works = receives(check);
    works.extend(pieces(check));
    works.extend(sends(check));
    works.extend(reports(check));
    works.push(ask(check));
    works.extend(hears(check));
    works.extend(advertises(check));
    works
}
