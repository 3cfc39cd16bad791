//! Each answer of the safe interface against the C interface's own, on calls that meet every refusal that a safe caller can.

use bogtrumpet::rules::{self, link_local, More, Outer, Run};
use bogtrumpet::ServiceName::{First, Second};
use bogtrumpet::{AdvertisedPrefix, AdvertisedRoute, Advertisement, Preference};
use bogtrumpet::{Locator, Node, Prefix, Received, Refusal, Sent, Settings, MEMORY};
use std::net::{Ipv4Addr, Ipv6Addr};

const OWN: Ipv4Addr = Ipv4Addr::new(10, 0, 0, 1);
const NEIGHBOUR: Ipv4Addr = Ipv4Addr::new(10, 1, 0, 1);
const ROUTER: Ipv4Addr = Ipv4Addr::new(10, 2, 0, 1);

fn node() -> Node {
    Node::new(&Settings::new(&[Locator::new(OWN, 7)]).routers(&[ROUTER])).expect("settings within the rules")
}

fn packet(length: usize, source: Ipv6Addr) -> Vec<u8> {
    let mut packet = vec![0; length];
    packet[0] = 0x60;
    packet[4..6].copy_from_slice(&u16::try_from(length - 40).unwrap().to_be_bytes());
    packet[6] = 17;
    packet[8..24].copy_from_slice(&source.octets());
    packet
}

/// Puts the RFC 1071 checksum at `at` right.
fn repair(bytes: &mut [u8], at: usize, start: u32) {
    bytes[at..at + 2].fill(0);
    let sum = rules::checksum(start, bytes);
    bytes[at..at + 2].copy_from_slice(&(!sum).to_be_bytes());
}

fn datagram(inner: &[u8], source: Ipv4Addr) -> Vec<u8> {
    let outer = Outer { identification: 1, dont_fragment: false, ttl: 64, protocol: 41, source, destination: OWN };
    let mut out = vec![0; inner.len() + 20];
    rules::wrap(&outer, inner, &mut out).expect("room for it").to_vec()
}

fn report(size: u16, quoted_source: Ipv4Addr) -> Vec<u8> {
    let mut message = vec![0; 28];
    message[..2].copy_from_slice(&[3, 4]);
    message[6..8].copy_from_slice(&size.to_be_bytes());
    message[8] = 0x45;
    message[17] = 41;
    message[20..24].copy_from_slice(&quoted_source.octets());
    message[24..].copy_from_slice(&NEIGHBOUR.octets());
    repair(&mut message, 2, 0);
    message
}

fn advertisement(router: Ipv4Addr) -> Vec<u8> {
    let mut packet = packet(56, link_local(router));
    (packet[6], packet[7], packet[40]) = (58, 255, 134);
    repair(&mut packet[8..], 34, 16 + 58);
    packet
}

#[test]
fn settings() {
    let locators = [Locator::new(OWN, 0); 9];
    assert_eq!(Node::new(&Settings::new(&locators)).unwrap_err(), Refusal::Settings);
    assert_eq!(Node::new(&Settings::new(&[])).unwrap_err(), Refusal::Settings);
    let settings = Settings::new(&locators[..1]);
    let routers: Vec<Ipv4Addr> = (1..=17).map(|last| Ipv4Addr::new(10, 2, 0, last)).collect();
    assert!(Node::new(&settings.routers(&routers[..16])).is_ok());
    assert!(Node::new(&settings.routers(&routers)).is_err());
    assert!(Node::new(&settings.prefixes(&[Prefix([1; 8]); 9])).is_err());
    for broken in
        [settings.link_size(575), settings.ttl(0), settings.interval(0), settings.reporting(Ipv6Addr::UNSPECIFIED)]
    {
        assert!(Node::new(&broken).is_err(), "{broken:?}");
    }
    let node = Node::new(&settings.identification(9).routers(&routers[..2])).unwrap();
    assert_eq!((node.identification(First), node.latest(), node.routers(First).unwrap().count()), (Ok(9), 0, 2));
    assert_eq!(node.settings(First), Ok(settings.identification(9).routers(&routers[..2])));
}

#[test]
fn receiving() {
    let mut node = node();
    let mut memory = [0x55; MEMORY];
    let inner = packet(60, link_local(NEIGHBOUR));
    let good = datagram(&inner, NEIGHBOUR);
    assert_eq!(node.receive(First, &good, 7, 5, &mut memory), Ok(Received::Whole(&inner)));
    assert_eq!(node.receive(First, &good, 8, 5, &mut memory), Err(Refusal::NotForUs));
    assert_eq!(node.receive(First, &good[..19], 7, 5, &mut memory), Err(Refusal::OuterMalformed));
    assert_eq!(node.receive(First, &[], 7, 5, &mut memory), Err(Refusal::OuterMalformed));
    assert_eq!(node.receive(First, &good, 7, 6, &mut memory[1..]), Err(Refusal::OutputShort));
    assert_eq!(node.latest(), 6);
    let mut changed = |at: usize, value: u8| {
        let mut datagram = good.clone();
        datagram[at] = value;
        if at < 20 {
            repair(&mut datagram[..20], 10, 0);
        }
        node.receive(First, &datagram, 7, 5, &mut memory).map(|received| received.packet().len())
    };
    assert_eq!(changed(9, 17), Err(Refusal::OtherProtocol));
    assert_eq!(changed(12, 127), Err(Refusal::OuterSourceForbidden));
    assert_eq!(changed(20, 0x40), Err(Refusal::InnerMalformed));
    assert_eq!(changed(28, 0xff), Err(Refusal::InnerSourceBad));
    assert_eq!(changed(15, 2), Err(Refusal::OuterSourceWrong));
    let mut wrong = good.clone();
    wrong[10] ^= 1;
    assert_eq!(node.receive(First, &wrong, 7, 5, &mut memory), Err(Refusal::OuterChecksum));
    assert!(memory == [0x55; MEMORY]);
}

/// A piece of the datagram: the part of its payload, and whether more-fragments is set.
fn piece(datagram: &[u8], part: std::ops::Range<usize>, more: bool) -> Vec<u8> {
    let mut piece = [&datagram[..20], &datagram[20..][part.clone()]].concat();
    let total = u16::try_from(piece.len()).unwrap();
    let fragment = u16::try_from(part.start / 8).unwrap() | u16::from(more) << 13;
    piece[2..4].copy_from_slice(&total.to_be_bytes());
    piece[6..8].copy_from_slice(&fragment.to_be_bytes());
    repair(&mut piece[..20], 10, 0);
    piece
}

#[test]
fn joining() {
    let mut node = node();
    let mut memory = vec![0x55; MEMORY + 1];
    let inner = packet(100, link_local(NEIGHBOUR));
    let whole = datagram(&inner, NEIGHBOUR);
    let (first, last) = (piece(&whole, 0..48, true), piece(&whole, 48..100, false));
    for (one, other) in [(&first, &last), (&last, &first)] {
        for _ in 0..2 {
            assert_eq!(node.receive(First, one, 7, 5, &mut memory), Err(Refusal::PieceWaits));
        }
        assert_eq!(node.receive(First, other, 7, 34, &mut memory), Ok(Received::Joined(&inner)));
        assert_eq!(memory[..100], inner);
        assert_eq!(node.receive(First, &whole, 7, 34, &mut memory), Ok(Received::Whole(&inner)));
        node = Node::new(&node.settings(First).unwrap()).unwrap();
    }
    assert!(memory[100..].iter().all(|&byte| byte == 0x55));
    // After 30 s the first piece is gone, and this one is the first of another datagram.
    assert_eq!(node.receive(First, &first, 7, 5, &mut memory), Err(Refusal::PieceWaits));
    assert_eq!(node.receive(First, &last, 7, 35, &mut memory), Err(Refusal::PieceWaits));
    assert_eq!(node.receive(First, &first, 7, 36, &mut memory).map(Received::packet), Ok(&inner[..]));
}

#[test]
fn joining_refused() {
    let mut node = node();
    let mut memory = [0; MEMORY];
    let whole = datagram(&packet(100, link_local(ROUTER)), NEIGHBOUR);
    let (first, last) = (piece(&whole, 0..48, true), piece(&whole, 48..100, false));
    let mut receive =
        |piece: &[u8]| node.receive(First, piece, 7, 5, &mut memory).map(|received| received.packet().len());
    assert_eq!(receive(&piece(&whole, 0..47, true)), Err(Refusal::PieceUnfit));
    assert_eq!(receive(&piece(&whole, 0..0, true)), Err(Refusal::PieceUnfit));
    assert_eq!(receive(&first), Err(Refusal::PieceWaits));
    assert_eq!(receive(&piece(&whole, 40..100, false)), Err(Refusal::PiecesDisagree));
    assert_eq!(receive(&first), Err(Refusal::PieceWaits));
    assert_eq!(receive(&piece(&whole, 40..48, false)), Err(Refusal::PiecesDisagree));
    assert_eq!(receive(&first), Err(Refusal::PieceWaits));
    assert_eq!(receive(&last), Err(Refusal::OuterSourceWrong));
    // Eight datagrams wait, and a ninth finds no place.
    for identification in 0..9 {
        let mut other = first.clone();
        other[5] = identification;
        repair(&mut other[..20], 10, 0);
        let refusal = if identification < 8 { Refusal::PieceWaits } else { Refusal::NoPlace };
        assert_eq!(receive(&other), Err(refusal));
    }
}

#[test]
fn sending() {
    let mut node = node();
    let (small, large) = (packet(60, link_local(OWN)), packet(1481, link_local(OWN)));
    let mut out = [0x55; 1600];
    let to = link_local(NEIGHBOUR);
    let Ok(Sent::Wrapped(written)) = node.send(First, &small, to, 0, 5, &mut out) else { panic!("60 bytes pass") };
    assert_eq!((written.len(), &written[20..]), (80, &small[..]));
    assert!(out[80..].iter().all(|&byte| byte == 0x55));
    let Ok(Sent::TooBig { size, message: Some(message) }) = node.send(First, &large, to, 0, 5, &mut out) else {
        panic!("1481 bytes are too big")
    };
    assert_eq!((size, message.len()), (1480, 1280));
    let unanswered = packet(1481, Ipv6Addr::UNSPECIFIED);
    assert_eq!(node.send(First, &unanswered, to, 0, 5, &mut []), Ok(Sent::TooBig { size: 1480, message: None }));
    let mut refused = |packet: &[u8], to, locator, room: usize| {
        let before = out;
        let refusal = node.send(First, packet, to, locator, 5, &mut out[..room]).unwrap_err();
        assert!(before == out);
        refusal
    };
    assert_eq!(refused(&small[..59], to, 0, 80), Refusal::InnerMalformed);
    assert_eq!(refused(&small, to, 1, 80), Refusal::NoLocator);
    assert_eq!(refused(&small, Ipv6Addr::LOCALHOST, 0, 80), Refusal::NextHopNotIsatap);
    assert_eq!(refused(&small, link_local(OWN), 0, 80), Refusal::TunnelEndForbidden);
    assert_eq!(refused(&small, to, 0, 79), Refusal::OutputShort);
    assert_eq!(refused(&large, to, 0, 1279), Refusal::OutputShort);
    assert_eq!((node.identification(First), node.latest()), (Ok(2), 5));
}

#[test]
fn too_big_behind_extension_headers() {
    let mut node = node();
    let to = link_local(NEIGHBOUR);
    // Destination options of 16 bytes, then a fragment header, then ICMPv6.
    let mut behind = packet(1481, link_local(OWN));
    behind[6] = 60;
    behind[40..42].copy_from_slice(&[44, 1]);
    behind[56..60].copy_from_slice(&[58, 7, 0, 1]);
    let mut out = [0x55; 1600];
    let mut send = |changes: &[(usize, u8)], room: usize| {
        let mut packet = behind.clone();
        for &(at, value) in changes {
            packet[at] = value;
        }
        match node.send(First, &packet, to, 0, 5, &mut out[..room])? {
            Sent::TooBig { size: 1480, message } => Ok(message.map(<[u8]>::len)),
            other => panic!("1481 bytes are too big: {other:?}"),
        }
    };
    // An echo request draws a message, an error and a redirect none.
    for (kind, drawn) in [(128, Some(1280)), (1, None), (137, None)] {
        assert_eq!(send(&[(64, kind)], 1600), Ok(drawn));
        assert_eq!(send(&[(64, kind)], 1279), drawn.map_or(Ok(None), |_| Err(Refusal::OutputShort)));
    }
    // A later fragment, and options that run past the packet.
    assert_eq!(send(&[(64, 128), (59, 8)], 0), Ok(None));
    assert_eq!(send(&[(64, 128), (41, 255)], 0), Ok(None));
}

#[test]
fn reports() {
    let mut node = node();
    assert_eq!(node.report(&[], 1), Err(Refusal::ReportMalformed));
    assert_eq!(node.report(&report(1400, NEIGHBOUR), 1), Err(Refusal::QuoteNotOurs));
    assert_eq!(node.report(&report(67, OWN), 1), Err(Refusal::SizeUnusable));
    assert_eq!(node.report(&report(1500, OWN), 1), Err(Refusal::SizeNotBelow));
    let reported = node.report(&report(1400, OWN), 1).unwrap();
    assert_eq!((reported.neighbour, reported.size), (NEIGHBOUR, 1400));
    assert_eq!((node.path_size(First, NEIGHBOUR), node.path_size(First, ROUTER)), (Ok(1400), Ok(1500)));
}

/// When the routers of the first service are due.
fn due(node: &Node) -> Vec<u64> {
    node.routers(First).unwrap().map(|router| router.due).collect()
}

#[test]
fn routers() {
    let mut node = node();
    let mut out = [0; 48];
    assert_eq!(node.ask(First, 1, 10, &mut out), Err(Refusal::NoLocator));
    assert_eq!(node.ask(First, 0, 10, &mut out[..47]), Err(Refusal::OutputShort));
    let asked = node.ask(First, 0, 10, &mut out).unwrap();
    assert_eq!((asked.router, asked.solicitation.len(), asked.solicitation[40]), (ROUTER, 48, 133));
    assert_eq!(node.ask(First, 0, 11, &mut out), Err(Refusal::NoRouterDue));
    assert_eq!(node.hear(First, &[], 12), Err(Refusal::InnerMalformed));
    assert_eq!(node.hear(First, &packet(56, link_local(ROUTER)), 12), Err(Refusal::AdvertisementInvalid));
    assert_eq!(node.hear(First, &advertisement(NEIGHBOUR), 12), Err(Refusal::AdvertiserNotListed));
    assert_eq!(node.hear(First, &advertisement(ROUTER), 12), Ok(ROUTER));
    assert_eq!(due(&node), [3612]);
    assert_eq!(node.replace_routers(First, &[OWN], 13), Err(Refusal::Settings));
    assert_eq!(node.replace_routers(First, &[Ipv4Addr::new(10, 2, 0, 2); 17], 13), Err(Refusal::Settings));
    assert_eq!(node.replace_routers(First, &[NEIGHBOUR, ROUTER], 13), Ok(()));
    assert_eq!(due(&node), [13, 3612]);
}

/// The solicitation that a station with the router `OWN` writes, and the station.
fn asking() -> (Node, [u8; 48]) {
    let mut station = Node::new(&Settings::new(&[Locator::new(NEIGHBOUR, 0)]).routers(&[OWN])).unwrap();
    let mut out = [0; 48];
    assert_eq!(station.ask(First, 0, 10, &mut out).map(|asked| asked.router), Ok(OWN));
    (station, out)
}

fn advertised() -> (AdvertisedPrefix, AdvertisedRoute) {
    let prefix = "2001:db8:1:2:3::".parse().unwrap();
    let prefix = AdvertisedPrefix { prefix, length: 64, on_link: false, autonomous: true, valid: 1800, preferred: 600 };
    let route = "2001:db8:ffff:ffff::".parse().unwrap();
    let route = AdvertisedRoute { prefix: route, length: 33, preference: Preference::High, lifetime: 900 };
    (prefix, route)
}

#[test]
fn advertising() {
    let node = node();
    let (mut station, asks) = asking();
    let (prefix, route) = advertised();
    let advertisement = Advertisement::new(1200).managed(true).prefixes(&[prefix]).routes(&[route]);
    let mut out = [0x55; 600];
    let written = node.advertise(First, &asks, 0, &advertisement, &mut out).unwrap();
    assert_eq!((written.len(), &written[8..24], &written[24..40]), (104, &asks[24..40], &asks[8..24]));
    assert_eq!(written[44..56], [0, 0x80, 0x04, 0xb0, 0, 0, 0, 0, 0, 0, 0, 0]);
    assert_eq!(written[56..72], [3, 4, 64, 0x40, 0, 0, 7, 8, 0, 0, 2, 0x58, 0, 0, 0, 0]);
    assert_eq!(written[72..88], [0x20, 1, 0x0d, 0xb8, 0, 1, 0, 2, 0, 0, 0, 0, 0, 0, 0, 0]);
    assert_eq!(written[88..104], [24, 2, 33, 8, 0, 0, 3, 0x84, 0x20, 1, 0x0d, 0xb8, 0x80, 0, 0, 0]);
    assert_eq!(station.hear(First, written, 20), Ok(OWN));
    assert!(out[104..].iter().all(|&byte| byte == 0x55));
    let flags = Advertisement::new(0).other(true).routes(&[AdvertisedRoute { preference: Preference::Low, ..route }]);
    let written = node.advertise(First, &asks, 0, &flags, &mut out).unwrap();
    assert_eq!((written.len(), written[45], written[59]), (72, 0x40, 0x18));
    let full = advertisement.prefixes(&[prefix; 8]).routes(&[AdvertisedRoute { length: 128, ..route }; 8]);
    assert_eq!(
        node.advertise(First, &asks, 0, &full, &mut out).map(<[u8]>::len),
        Ok(bogtrumpet::MAX_ADVERTISEMENT_LENGTH)
    );
}

#[test]
fn advertising_refused() {
    let node = node();
    let (_, asks) = asking();
    let (prefix, route) = advertised();
    let good = Advertisement::new(1200).prefixes(&[prefix]).routes(&[route]);
    let refused = |packet: &[u8], locator, advertisement: &Advertisement, room| {
        let mut out = [0x55; 104];
        let refusal = node.advertise(First, packet, locator, advertisement, &mut out[..room]).unwrap_err();
        assert!(out == [0x55; 104]);
        refusal
    };
    let changed = |at: usize, value: u8| {
        let mut packet = asks;
        packet[at] = value;
        repair(&mut packet[8..], 34, 8 + 58);
        refused(&packet, 0, &good, 104)
    };
    assert_eq!(refused(&asks[..47], 0, &good, 104), Refusal::InnerMalformed);
    assert_eq!(refused(&asks, 1, &good, 104), Refusal::NoLocator);
    assert_eq!(changed(7, 254), Refusal::SolicitationInvalid);
    assert_eq!(changed(40, 134), Refusal::SolicitationInvalid);
    assert_eq!(changed(16, 1), Refusal::AskerNotIsatap);
    assert_eq!(refused(&asks, 0, &good.prefixes(&[prefix; 9]), 104), Refusal::OptionsBad);
    assert_eq!(refused(&asks, 0, &good.routes(&[route; 9]), 104), Refusal::OptionsBad);
    assert_eq!(refused(&asks, 0, &good.routes(&[AdvertisedRoute { length: 129, ..route }]), 104), Refusal::OptionsBad);
    assert_eq!(refused(&asks, 0, &good, 103), Refusal::OutputShort);
}

const OTHER: Ipv4Addr = Ipv4Addr::new(10, 0, 0, 2);

/// A second service, on another link, to which the first one's locator is a router.
fn other() -> Settings {
    Settings::new(&[Locator::new(OTHER, 7)]).routers(&[OWN]).link_size(9000).identification(9)
}

fn pair() -> Node {
    let first = Settings::new(&[Locator::new(OWN, 7)]).routers(&[ROUTER, OTHER]);
    Node::new_pair(&first, &other()).expect("settings within the rules")
}

#[test]
fn two_services() {
    let mut node = pair();
    assert_eq!((node.path_size(First, NEIGHBOUR), node.path_size(Second, NEIGHBOUR)), (Ok(1500), Ok(9000)));
    // A size above the link size of the one is kept for the other alone; a smaller one is for both.
    assert_eq!(node.report(&report(5000, OWN), 1), Err(Refusal::SizeNotBelow));
    for (size, in_force) in [(5000, 1500), (1400, 1400)] {
        let reported = node.report(&report(size, OTHER), 1).unwrap();
        assert_eq!((reported.neighbour, reported.size), (NEIGHBOUR, size));
        assert_eq!((node.path_size(First, NEIGHBOUR), node.path_size(Second, NEIGHBOUR)), (Ok(in_force), Ok(size)));
    }
    let (packet, mut out) = (packet(60, link_local(OWN)), [0; 80]);
    // Our own is the named service's alone.
    assert!(node.send(First, &packet, link_local(OTHER), 0, 2, &mut out).is_ok());
    assert_eq!(node.send(Second, &packet, link_local(OTHER), 0, 3, &mut out), Err(Refusal::TunnelEndForbidden));
    assert_eq!((node.identification(First), node.identification(Second), node.latest()), (Ok(2), Ok(9), 3));
    assert_eq!(node.ask(Second, 0, 4, &mut out).map(|asked| asked.router), Ok(OWN));
    assert_eq!(node.replace_routers(Second, &[], 5), Ok(()));
    assert_eq!((node.routers(First).unwrap().count(), node.routers(Second).unwrap().count()), (2, 0));
    assert_eq!(node.settings(Second), Ok(other()));
}

#[test]
fn two_collections() {
    let mut node = pair();
    let mut memories = vec![[0; MEMORY]; 2];
    let inner = packet(100, link_local(NEIGHBOUR));
    let wholes = [OWN, OTHER].map(|destination| {
        let mut whole = datagram(&inner, NEIGHBOUR);
        whole[16..20].copy_from_slice(&destination.octets());
        repair(&mut whole[..20], 10, 0);
        whole
    });
    for (part, more) in [(0..48, true), (48..100, false)] {
        for ((service, whole), memory) in [First, Second].into_iter().zip(&wholes).zip(&mut memories) {
            let piece = piece(whole, part.clone(), more);
            let other = if service == First { Second } else { First };
            assert_eq!(node.receive(other, &piece, 7, 5, memory), Err(Refusal::NotForUs));
            let expected = if more { Err(Refusal::PieceWaits) } else { Ok(Received::Joined(&inner)) };
            assert_eq!(node.receive(service, &piece, 7, 5, memory), expected);
        }
    }
}

#[test]
fn no_second_service() {
    let mut node = node();
    let (mut out, mut memory) = ([0x55; 48], [0x55; MEMORY]);
    let absent = Refusal::NoLocator;
    assert_eq!(node.receive(Second, &[], 7, 1, &mut memory), Err(absent));
    assert_eq!(node.receive(Second, &[], 7, 2, &mut []), Err(absent));
    assert_eq!(node.send(Second, &[], link_local(OWN), 0, 3, &mut out), Err(absent));
    assert_eq!(node.replace_routers(Second, &[OWN], 4), Err(absent));
    assert_eq!(node.ask(Second, 0, 5, &mut out), Err(absent));
    assert_eq!(node.hear(Second, &[], 6), Err(absent));
    assert_eq!(node.advertise(Second, &[], 0, &Advertisement::new(0), &mut out), Err(absent));
    assert_eq!(node.path_size(Second, NEIGHBOUR), Err(absent));
    assert_eq!((node.identification(Second), node.settings(Second)), (Err(absent), Err(absent)));
    assert!(node.routers(Second).is_err() && out == [0x55; 48] && memory == [0x55; MEMORY]);
    assert_eq!(node.latest(), 6);
}

#[test]
fn settings_of_two() {
    let settings = |address, interface| Settings::new(&[Locator::new(address, interface)]);
    assert!(Node::new_pair(&settings(OWN, 7), &settings(OTHER, 7)).is_ok());
    let broken = [
        (settings(OWN, 7), settings(OWN, 7)),
        (settings(OWN, 7), settings(OWN, 8)),
        (settings(OWN, 7).ttl(0), settings(OTHER, 7)),
        (settings(OWN, 7), settings(OTHER, 7).ttl(0)),
        (settings(OWN, 7), Settings::new(&[])),
    ];
    for (first, second) in broken {
        assert_eq!(Node::new_pair(&first, &second).unwrap_err(), Refusal::Settings);
    }
}

#[test]
fn rules_without_state() {
    let inner = packet(60, link_local(NEIGHBOUR));
    let mut good = datagram(&inner, NEIGHBOUR);
    let read = rules::read_outer(&good).unwrap();
    assert_eq!((read.header, read.total, read.source, read.destination), (20, 80, NEIGHBOUR, OWN));
    assert_eq!(rules::unwrap(&good), Ok(&inner[..]));
    assert!(rules::checksum_right(&good[..20]) && rules::checksum_right(&[0xff, 0xff]) && !rules::checksum_right(&[]));
    good[0] = 0;
    assert_eq!(rules::read_outer(&good), Err(Refusal::OuterMalformed));
    assert!(rules::forbidden(Ipv4Addr::LOCALHOST) && !rules::forbidden(OWN));
    assert!(rules::bad_source(Ipv6Addr::LOCALHOST) && !rules::bad_source(link_local(OWN)));
    let global: Ipv6Addr = "2001:db8::200:5efe:10.0.0.1".parse().unwrap();
    assert_eq!(rules::isatap(&[Prefix::from(global)], global), Some(OWN));
    assert_eq!(rules::isatap(&[], global), None);
    let mut out = [0; 1280];
    assert_eq!(rules::too_big(global, 1480, &inner, &mut out).map(<[u8]>::len), Ok(108));
    assert_eq!(rules::too_big(global, 1480, &inner[..39], &mut out), Err(Refusal::InnerMalformed));
    assert_eq!(rules::solicitation(OWN, ROUTER, &mut out).map(<[u8]>::len), Ok(48));
    assert_eq!(rules::solicitation(OWN, ROUTER, &mut out[..47]), Err(Refusal::OutputShort));
    let outer =
        Outer { identification: 1, dont_fragment: true, ttl: 64, protocol: 41, source: OWN, destination: ROUTER };
    assert_eq!(rules::wrap(&outer, &vec![0; 65516], &mut out), Err(Refusal::WrappedTooLong));
    assert_eq!(rules::wrap(&outer, &[], &mut out).map(|written| written[6]), Ok(0x40));
}

#[test]
fn comparing() {
    // Two datagrams, of twelve bytes and of two; and one, of which the TTL, the protocol and a thirteenth byte differ.
    let first = [&[0, 2, 0, 0, 12][..], &[1; 12], &[7, 0, 2, 3, 3]].concat();
    let second = [&[0, 1, 9, 0, 13][..], &[1; 8], &[2, 2], &[1; 3]].concat();
    let run = |offset, length| Run { datagram: 1, offset, length };
    let mut out = [0xa5; 20];
    let compared = rules::compare(false, &first, &second, &mut out).unwrap();
    assert_eq!((compared.report, compared.more), (&[0, 1, 0, 8, 0, 2, 0, 1, 0, 12, 0, 1][..], More::First));
    assert!(compared.runs().eq([run(8, 2), run(12, 1)]));
    assert_eq!(out[12..], [0xa5; 8]);
    let compared = rules::compare(true, &second, &first, &mut out).unwrap();
    assert!(compared.more == More::Second && compared.runs().eq([run(9, 1), run(12, 1)]));
    let compared = rules::compare(true, &second, &second, &mut out).unwrap();
    assert!(compared.more == More::Neither && compared.runs().len() == 0);
    let mut out = [0xa5; 11];
    assert_eq!(rules::compare(false, &first, &second, &mut out), Err(Refusal::OutputShort));
    assert_eq!(rules::compare(false, &first[..21], &second, &mut out), Err(Refusal::RecordingMalformed));
    assert_eq!(rules::compare(false, &first, &[], &mut out), Err(Refusal::RecordingMalformed));
    assert_eq!(out, [0xa5; 11]);
}

#[test]
fn refusals() {
    let numbers: Vec<u8> = Refusal::ALL.iter().map(|refusal| refusal.number()).collect();
    assert_eq!(numbers, (1..=31).filter(|&number| number != 14).collect::<Vec<u8>>());
    for &refusal in Refusal::ALL {
        assert_eq!(Refusal::from_number(refusal.number()), Some(refusal));
        let error: &dyn std::error::Error = &refusal;
        assert!(!error.to_string().is_empty());
    }
    for number in [0, 14, 32, 255] {
        assert_eq!(Refusal::from_number(number), None);
    }
}
