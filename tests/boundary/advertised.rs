//! What an operator has advertised, drawn at random, and what comes of it where it is heard.

use crate::check::{hex, same, Check};
use crate::nodes::Nodes;
use crate::plain::{Locator, Settings};
use crate::random::Random;
use crate::totals::Call;
use bogtrumpet::raw::{AdvertisedPrefix, AdvertisedRoute, Advertisement};

/// Lengths of prefixes at the edges of bytes and of a route option's length.
pub const LENGTHS: [u8; 12] = [0, 1, 7, 8, 9, 48, 63, 64, 65, 127, 128, 32];
const TOO_LONG: [u8; 4] = [129, 130, 192, 255];
/// The longest advertisement.
pub const LONGEST: usize = 504;

/// Mostly one that is written; what stands behind a count would not be.
pub fn any(random: &mut Random) -> Advertisement {
    let mut advertised = Advertisement {
        prefix_count: count(random),
        route_count: count(random),
        lifetime: lifetime(random) as u16,
        managed: flag(random),
        other: flag(random),
        ..Advertisement::default()
    };
    for (place, prefix) in advertised.prefixes.iter_mut().enumerate() {
        *prefix = AdvertisedPrefix {
            bytes: bits(random),
            length: length(random, place < advertised.prefix_count),
            on_link: flag(random),
            autonomous: flag(random),
            valid: lifetime(random),
            preferred: lifetime(random),
        };
    }
    for (place, route) in advertised.routes.iter_mut().enumerate() {
        *route = AdvertisedRoute {
            bytes: bits(random),
            length: length(random, place < advertised.route_count),
            preference: preference(random),
            lifetime: lifetime(random),
        };
    }
    advertised
}

fn count(random: &mut Random) -> usize {
    match random.below(24) {
        0 => random.one_of(&[9, 10, 255, 256, 1 << 32, (1 << 32) + 3, usize::MAX]),
        _ => random.between(0, 8),
    }
}

fn length(random: &mut Random, counts: bool) -> u8 {
    match random.below(64) {
        0 => random.one_of(&TOO_LONG),
        _ if !counts => random.next() as u8,
        1..=40 => random.one_of(&LENGTHS),
        _ => random.between(0, 128) as u8,
    }
}

fn bits(random: &mut Random) -> [u8; 16] {
    if random.once_in(3) {
        [0xff; 16]
    } else {
        random.bytes()
    }
}

/// The byte that says it in C: often 0 or 1, or any other.
fn flag(random: &mut Random) -> u8 {
    let any = random.next() as u8;
    random.one_of(&[0, 0, 1, 1, 2, 255, any])
}

fn preference(random: &mut Random) -> u8 {
    let any = random.next() as u8;
    random.one_of(&[0, 1, 2, 1, 2, 3, 255, any])
}

fn lifetime(random: &mut Random) -> u32 {
    match random.below(8) {
        0..=2 => random.one_of(&[0, u32::MAX]),
        3 => random.one_of(&[1, 2, 3, 7200, 7201, 0xffff, 0x1_0000, u32::MAX - 1]),
        4 => random.next() as u32,
        _ => random.below(20_000) as u32,
    }
}

/// A node that lists the locators of these services, among others, and has another interval.
pub fn hearer(check: &mut Check, writers: &[Settings]) -> Nodes {
    let mut settings = Settings { locator_count: 1, router_count: 2, ..Settings::default() };
    settings.locators[0] = Locator { address: 0x0a05_0001, interface: 0 };
    settings.routers[..2].copy_from_slice(&[0x0a05_0002, 0x0a05_0003]);
    for locator in writers.iter().flat_map(|writer| &writer.locators[..writer.locator_count]) {
        if !settings.routers[..settings.router_count].contains(&locator.address) {
            settings.routers[settings.router_count] = locator.address;
            settings.router_count += 1;
        }
    }
    let settings = Settings { interval: check.random.one_of(&[1, 60, 120, 3600]), ..settings.defaults() };
    Nodes::new(check, &settings).expect("settings within the rules")
}

/// What was written is taken where its writer is listed, and the due time there is that of the operator's own lifetimes (R22.14).
pub fn heard(
    check: &mut Check,
    hearer: &mut Nodes,
    writer: u32,
    advertised: &Advertisement,
    written: &[u8],
    time: u32,
) {
    let number = hearer.hear(check, written, time);
    let service = &hearer.library.first;
    let list = &service.routers;
    let given = list.addresses[..list.count].iter().position(|&router| router == writer).map(|place| list.dues[place]);
    let wait = smallest(advertised).map_or(3600, |lifetime| (lifetime / 2).max(service.settings.interval.into()));
    let due = u64::from(hearer.library.latest) + u64::from(wait);
    let call = || format!("{} written for {advertised:?} and heard at {time}", hex(written));
    same("number and due time", &(0, Some(due)), &(number, given), &call);
    check.totals.count(Call::RoundTrip, 0);
}

/// The smallest lifetime that counts: the router's, valid ones and those of routes.
fn smallest(advertised: &Advertisement) -> Option<u32> {
    let prefixes = advertised.prefixes[..advertised.prefix_count].iter().map(|prefix| prefix.valid);
    let routes = advertised.routes[..advertised.route_count].iter().map(|route| route.lifetime);
    let all = prefixes.chain(routes).chain([advertised.lifetime.into()]);
    all.filter(|lifetime| ![0, u32::MAX].contains(lifetime)).min()
}
