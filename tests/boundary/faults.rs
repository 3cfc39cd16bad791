//! Calls with two faults, as tests/double_faults.txt has them: of the two numbers the one that is judged first must be given.

use crate::check::{same, Check};
use crate::nodes::Nodes;
use crate::plain::rules::{address_at, u16_at, u32_at};
use crate::plain::{Locator, Settings};
use bogtrumpet::raw::Advertisement;

const CALLS: &str = include_str!("../double_faults.txt");
/// Before a call that names the second service, which the node has not.
const ABSENT: &str = "absent-";

pub fn faults(check: &mut Check) {
    for line in CALLS.lines().filter(|line| !line.starts_with('#')) {
        let words: Vec<&str> = line.split(' ').collect();
        let (service, name) = words[0].strip_prefix(ABSENT).map_or((0, words[0]), |name| (1, name));
        let mut nodes = node(check);
        let given = given(check, nodes.through(service), name, &words);
        same("the first of two faults", &number(words[1]), &usize::from(given), &|| line.into());
    }
}

/// The node of one service that each call is made on.
fn node(check: &mut Check) -> Nodes {
    let mut settings = Settings { locator_count: 1, prefix_count: 1, ..Settings::default() };
    settings.locators[0] = Locator { address: 0x0a00_0001, interface: 0 };
    settings.prefixes[0] = [0x20, 0x01, 0x0d, 0xb8, 0, 0, 0, 1];
    Nodes::new(check, &settings.defaults()).expect("settings within the rules")
}

/// The number that the call of that name gives, with the fields of its line.
fn given(check: &mut Check, nodes: &mut Nodes, name: &str, words: &[&str]) -> u8 {
    let last = words[words.len() - 1];
    match name {
        "receive" => {
            let (interface, room) = (number(words[3]) as u8, number(words[4]));
            let receive = |datagram| number_of(nodes.receive_in(check, &bytes(datagram), interface, 0, room));
            last.split(',').map(receive).last().expect("a datagram")
        }
        "send" => {
            let next_hop = bytes(words[4]).try_into().expect("16 bytes");
            nodes.send(check, &bytes(last), next_hop, number(words[3]), 0, number(words[5]))
        }
        "report" => nodes.report(check, &bytes(last), 0),
        "routers" => {
            let routers: Vec<u32> = last.split(',').map(|router| u32_at(&bytes(router), 0)).collect();
            nodes.replace_routers(check, &routers, 0)
        }
        "ask" => nodes.ask(check, number(words[3]), 0, number(words[4])),
        "advertisement" => nodes.hear(check, &bytes(last), 0),
        "advertise" => {
            let (locator, room, advertised) = (number(words[3]), number(words[4]), advertised(&bytes(words[5])));
            number_of(nodes.advertise(check, &bytes(last), locator, &advertised, room))
        }
        other => panic!("no call: {other}"),
    }
}

/// The operator's advertisement, of which all is there, as docs/REPLAY.md has it.
fn advertised(mut bytes: &[u8]) -> Advertisement {
    let mut next = |length| bytes.split_off(..length).expect("so many bytes");
    let mut advertised = Advertisement::default();
    let flags = next(1)[0];
    (advertised.managed, advertised.other) = (flags & 0x80, flags & 0x40);
    advertised.lifetime = u16_at(next(2), 0);
    advertised.prefix_count = u16_at(next(2), 0).into();
    for place in 0..advertised.prefix_count {
        let entry = next(26);
        if let Some(prefix) = advertised.prefixes.get_mut(place) {
            (prefix.length, prefix.on_link, prefix.autonomous) = (entry[0], entry[1] & 0x80, entry[1] & 0x40);
            (prefix.valid, prefix.preferred) = (u32_at(entry, 2), u32_at(entry, 6));
            prefix.bytes = address_at(entry, 10);
        }
    }
    advertised.route_count = u16_at(next(2), 0).into();
    for place in 0..advertised.route_count {
        let entry = next(22);
        if let Some(route) = advertised.routes.get_mut(place) {
            (route.length, route.preference) = (entry[0], entry[1]);
            (route.lifetime, route.bytes) = (u32_at(entry, 2), address_at(entry, 6));
        }
    }
    advertised
}

/// 0, where the call was not refused.
fn number_of<T>(answer: Result<T, u8>) -> u8 {
    answer.err().unwrap_or(0)
}

fn number(word: &str) -> usize {
    word.parse().expect("a number")
}

fn bytes(word: &str) -> Vec<u8> {
    let digits = if word == "-" { "" } else { word };
    let byte = |at: usize| u8::from_str_radix(&digits[at..at + 2], 16).expect("two digits");
    (0..digits.len()).step_by(2).map(byte).collect()
}
