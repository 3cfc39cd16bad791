//! Advertising (R22): the packet that asks is read, and the operator's advertisement written.

use super::address::Six;
use super::bytes::{put_words, word16};
use super::inner::{each_option, is_checksum_right, Inner, FULL_HOP_LIMIT, HEADER};
use super::messages::{first_word, pseudo};
use super::sum::{added, complement};
use crate::plain::rules::{Preference, Prefix, Route};
use crate::plain::{Address, Advertisement, Refusal};

const SOLICITATION: u16 = 133;
const ADVERTISEMENT: u64 = 134;
const SOURCE_LINK_LAYER: u8 = 1;
const PREFIX: u8 = 3;
const ROUTE: u8 = 24;
const PREFIX_OPTION: usize = 32;
/// The advertisement's own fields.
const FIELDS: usize = 16;
const LONGEST_PREFIX: u8 = 128;

/// Whether the packet, of that header, is a valid solicitation.
pub fn is_solicitation(inner: &Inner, packet: &[u8]) -> bool {
    let Some((front, options)) = packet[HEADER..].split_first_chunk::<8>() else { return false };
    if !inner.is_discovery() || word16(front, 0) != SOLICITATION {
        return false;
    }
    let mut with_source = false;
    let walked = each_option(options, |front| with_source |= front as u8 == SOURCE_LINK_LAYER);
    walked && !(with_source && inner.source().is_unspecified()) && is_checksum_right(packet)
}

/// The prefixes and routes that count; 26.
fn entries(advertised: &Advertisement) -> Result<(&[Prefix], &[Route]), Refusal> {
    let prefixes = advertised.prefixes.get(..advertised.prefix_count).ok_or(Refusal::Entries)?;
    let routes = advertised.routes.get(..advertised.route_count).ok_or(Refusal::Entries)?;
    let longest = prefixes.iter().map(|prefix| prefix.length).chain(routes.iter().map(|route| route.length)).max();
    if longest > Some(LONGEST_PREFIX) {
        return Err(Refusal::Entries);
    }
    Ok((prefixes, routes))
}

/// The first `length` bits as two words, and 0 behind them.
fn masked(bytes: &Address, length: u8) -> [u64; 2] {
    let mask = u128::MAX.checked_shl(128 - u32::from(length)).unwrap_or(0);
    let bits = (u128::from_be_bytes(*bytes) & mask).swap_bytes();
    [bits as u64, (bits >> 64) as u64]
}

/// The eight bytes that an option begins with, as a word.
fn option_front(kind: u8, length: usize, bits: u8, flags: u8, lifetime: u32) -> u64 {
    let front = u32::from_le_bytes([kind, (length / 8) as u8, bits, flags]);
    u64::from(front) | u64::from(lifetime.swap_bytes()) << 32
}

fn prefix_words(prefix: &Prefix) -> [u64; 4] {
    let flags = u8::from(prefix.on_link) << 7 | u8::from(prefix.autonomous) << 6;
    let front = option_front(PREFIX, PREFIX_OPTION, prefix.length, flags, prefix.valid);
    let [upper, lower] = masked(&prefix.bytes, prefix.length);
    [front, prefix.preferred.swap_bytes().into(), upper, lower]
}

/// The option's length: the shortest that holds the prefix.
fn route_length(route: &Route) -> usize {
    8 + 8 * usize::from(route.length.div_ceil(64))
}

/// Of which so many bytes as the option is long are written.
fn route_words(route: &Route) -> [u64; 3] {
    let preference = match route.preference {
        Preference::High => 0x08,
        Preference::Medium => 0x00,
        Preference::Low => 0x18,
    };
    let front = option_front(ROUTE, route_length(route), route.length, preference, route.lifetime);
    let [upper, lower] = masked(&route.bytes, route.length);
    [front, upper, lower]
}

/// Writes the advertisement from our link-local address to the asker and gives its length; 26, 15.
pub fn write_advertisement(
    locator: u32,
    asker: &Six,
    advertised: &Advertisement,
    out: &mut [u8],
) -> Result<usize, Refusal> {
    let (prefixes, routes) = entries(advertised)?;
    let message = FIELDS + PREFIX_OPTION * prefixes.len() + routes.iter().map(route_length).sum::<usize>();
    let out = out.get_mut(..HEADER + message).ok_or(Refusal::Room)?;
    let flags = u64::from(advertised.managed) << 7 | u64::from(advertised.other) << 6;
    let fields = ADVERTISEMENT | flags << 40 | u64::from(advertised.lifetime.swap_bytes()) << 48;
    let (own, first) = (Six::link_local(locator), first_word(message, FULL_HOP_LIMIT));
    put_words(out, [first, own.prefix, own.identifier, asker.prefix, asker.identifier, fields, 0]);
    let mut rest = &mut out[HEADER + FIELDS..];
    for prefix in prefixes {
        put_words(rest, prefix_words(prefix));
        rest = &mut rest[PREFIX_OPTION..];
    }
    for route in routes {
        let length = route_length(route);
        // Words behind the option's are written over, or are past the end.
        put_words(rest, route_words(route));
        rest = &mut rest[length..];
    }
    let sum = added(pseudo(message), &out[8..]);
    out[HEADER + 2..HEADER + 4].copy_from_slice(&complement(sum).to_le_bytes());
    Ok(HEADER + message)
}
