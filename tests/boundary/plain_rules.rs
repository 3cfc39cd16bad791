//! The rules without state (docs/RULES.md) in plain Rust: checksums, addresses, headers and messages.

use std::ops::Range;

/// An IPv6 address.
pub type Address = [u8; 16];

/// The numbers given back. 14, Too Big, carries values: it is an answer of sending.
#[derive(Clone, Copy, Debug, PartialEq, Eq)]
#[repr(u8)]
pub enum Refusal {
    Settings = 1,
    OuterMalformed = 2,
    OuterChecksum = 3,
    Protocol = 4,
    Piece = 5,
    NotOurs = 6,
    OuterSource = 7,
    InnerMalformed = 8,
    InnerSource = 9,
    SourcesDiffer = 10,
    /// Of a locator or of a service.
    NoSuchNumber = 11,
    NextHop = 12,
    TunnelEnd = 13,
    Room = 15,
    NoReport = 16,
    ForeignQuote = 17,
    UnusableSize = 18,
    SizeNotBelow = 19,
    NoAdvertisement = 20,
    Unlisted = 21,
    NoneDue = 22,
    TooLong = 23,
    NoSolicitation = 24,
    Asker = 25,
    Entries = 26,
    PieceWaits = 27,
    NoPlace = 28,
    PiecesDisagree = 29,
    PieceUnfit = 30,
    Recording = 31,
}

pub const OUTER_HEADER: usize = 20;
pub const INNER_HEADER: usize = 40;
pub const TUNNELLED: u8 = 41;
const ICMPV6: u8 = 58;
const LINK_LOCAL: [u8; 8] = [0xfe, 0x80, 0, 0, 0, 0, 0, 0];
const UNSPECIFIED: Address = [0; 16];
const LOOPBACK: Address = [0, 0, 0, 0, 0, 0, 0, 0, 0, 0, 0, 0, 0, 0, 0, 1];
/// The most of a packet that a Too Big quotes.
const QUOTED: usize = 1232;
/// The first byte of a router's two messages, and of a redirect.
const SOLICITATION: u8 = 133;
const ADVERTISEMENT: u8 = 134;
const REDIRECT: u8 = 137;
/// The extension headers that are followed: hop-by-hop options, routing, fragment, destination options.
const FRAGMENT: u8 = 44;
const EXTENSIONS: [u8; 4] = [0, 43, FRAGMENT, 60];
/// The types of the options that the rules name.
const SOURCE_LINK_LAYER: u8 = 1;
const PREFIX: u8 = 3;
const ROUTE: u8 = 24;
/// The most prefixes of an advertisement, and the most routes.
pub const ENTRIES: usize = 8;

/// The 16-bit field at `at`.
pub fn u16_at(bytes: &[u8], at: usize) -> u16 {
    u16::from_be_bytes([bytes[at], bytes[at + 1]])
}

/// The 32-bit field at `at`.
pub fn u32_at(bytes: &[u8], at: usize) -> u32 {
    u32::from_be_bytes([bytes[at], bytes[at + 1], bytes[at + 2], bytes[at + 3]])
}

/// The address at `at`.
pub fn address_at(bytes: &[u8], at: usize) -> Address {
    let mut address = [0; 16];
    address.copy_from_slice(&bytes[at..at + 16]);
    address
}

/// The RFC 1071 sum of `bytes`, continued from the two words of `start`; a last odd byte is the high half of a word.
pub fn checksum(start: u32, bytes: &[u8]) -> u16 {
    let mut sum = u64::from(start >> 16) + u64::from(start & 0xffff);
    // 32 bits hold the words of 64 KiB.
    for block in bytes.chunks(1 << 16) {
        let words = block.chunks_exact(2);
        let odd = words.remainder().first().map_or(0, |&last| u32::from(last) << 8);
        let words: u32 = words.map(|word| u32::from(u16::from_be_bytes([word[0], word[1]]))).sum();
        sum += u64::from(words) + u64::from(odd);
    }
    while sum > 0xffff {
        sum = (sum >> 16) + (sum & 0xffff);
    }
    sum as u16
}

/// Whether the sum that includes the checksum field is FFFF.
pub fn checksum_right(bytes: &[u8]) -> bool {
    checksum(0, bytes) == 0xffff
}

/// Whether the checksum of the ICMPv6 message in an IPv6 packet without extension headers is right.
pub fn icmpv6_right(packet: &[u8]) -> bool {
    icmpv6_sum(packet) == 0xffff
}

/// The sum over pseudo-header (RFC 4443 2.3) and message: the addresses stand just before the message.
fn icmpv6_sum(packet: &[u8]) -> u16 {
    let length = (packet.len() - INNER_HEADER) as u32;
    let pseudo = checksum(length, &[0, ICMPV6]);
    checksum(u32::from(pseudo), &packet[8..])
}

/// 0.0.0.0, 127.0.0.0/8, 224.0.0.0/4, 255.255.255.255.
pub fn forbidden(address: u32) -> bool {
    address == 0 || address >> 24 == 127 || address >> 28 == 0xe || address == u32::MAX
}

pub fn is_multicast(address: &Address) -> bool {
    address[0] == 0xff
}

/// Multicast or `::`: no reporting address, and no source to send a message to.
pub fn no_host(address: &Address) -> bool {
    is_multicast(address) || *address == UNSPECIFIED
}

pub fn is_link_local(address: &Address) -> bool {
    address[..8] == LINK_LOCAL
}

/// The IPv4 address that an ISATAP address embeds: an on-link prefix, 00 or 02, 00, 5E, FE, the address.
pub fn isatap(prefixes: &[[u8; 8]], address: &Address) -> Option<u32> {
    let on_link = is_link_local(address) || prefixes.iter().any(|prefix| *prefix == address[..8]);
    let identifier = matches!(address[8..12], [0x00 | 0x02, 0x00, 0x5e, 0xfe]);
    (on_link && identifier).then(|| u32_at(address, 12))
}

/// The link-local ISATAP address of an IPv4 address, as we form it.
pub fn link_local(address: u32) -> Address {
    let mut formed = [0; 16];
    formed[..8].copy_from_slice(&LINK_LOCAL);
    formed[8..12].copy_from_slice(&[0x00, 0x00, 0x5e, 0xfe]);
    formed[12..].copy_from_slice(&address.to_be_bytes());
    formed
}

/// ff00::/8, `::`, `::1`, or 96 zero bits followed by a forbidden IPv4 address.
pub fn bad_source(address: &Address) -> bool {
    let compatible = address[..12] == [0; 12];
    is_multicast(address)
        || *address == UNSPECIFIED
        || *address == LOOPBACK
        || compatible && forbidden(u32_at(address, 12))
}

/// An outer header as read.
#[derive(Clone, Copy, Debug, Default, PartialEq, Eq)]
pub struct OuterRead {
    pub header: u16,
    pub total: u16,
    pub identification: u16,
    /// More-fragments and the 13 bits of the offset; don't-fragment and the reserved bit make no piece.
    pub fragment: u16,
    pub protocol: u8,
    pub source: u32,
    pub destination: u32,
}

impl OuterRead {
    pub fn is_piece(&self) -> bool {
        self.fragment != 0
    }

    /// What stands between the header and the total length.
    pub fn payload<'d>(&self, datagram: &'d [u8]) -> &'d [u8] {
        &datagram[usize::from(self.header)..usize::from(self.total)]
    }
}

/// The outer header of a whole datagram; 2, 3, 4, 5.
pub fn read_outer(datagram: &[u8]) -> Result<OuterRead, Refusal> {
    let outer = read_any_outer(datagram)?;
    if outer.is_piece() {
        return Err(Refusal::Piece);
    }
    Ok(outer)
}

/// The outer header of a whole datagram or a piece; 2, 3, 4.
#[inline]
pub fn read_any_outer(datagram: &[u8]) -> Result<OuterRead, Refusal> {
    if datagram.len() < OUTER_HEADER || datagram[0] >> 4 != 4 {
        return Err(Refusal::OuterMalformed);
    }
    let header = usize::from(datagram[0] & 0xf) * 4;
    let total = usize::from(u16_at(datagram, 2));
    if header < OUTER_HEADER || header > datagram.len() || total < header || total > datagram.len() {
        return Err(Refusal::OuterMalformed);
    }
    if !checksum_right(&datagram[..header]) {
        return Err(Refusal::OuterChecksum);
    }
    let protocol = datagram[9];
    if protocol != TUNNELLED {
        return Err(Refusal::Protocol);
    }
    Ok(OuterRead {
        header: header as u16,
        total: total as u16,
        identification: u16_at(datagram, 4),
        fragment: u16_at(datagram, 6) & 0x3fff,
        protocol,
        source: u32_at(datagram, 12),
        destination: u32_at(datagram, 16),
    })
}

/// The length of the IPv6 packet at the start of `bytes`; 8.
pub fn inner_length(bytes: &[u8]) -> Result<usize, Refusal> {
    if bytes.len() < INNER_HEADER || bytes[0] >> 4 != 6 {
        return Err(Refusal::InnerMalformed);
    }
    let length = INNER_HEADER + usize::from(u16_at(bytes, 4));
    if length > bytes.len() {
        return Err(Refusal::InnerMalformed);
    }
    Ok(length)
}

/// Where the inner packet of a datagram stands; 2 to 5 and 8.
pub fn unwrap(datagram: &[u8]) -> Result<Range<usize>, Refusal> {
    let outer = read_outer(datagram)?;
    let start = usize::from(outer.header);
    let length = inner_length(outer.payload(datagram))?;
    Ok(start..start + length)
}

/// What the outer header that we write is made of, lengths and checksum aside.
#[derive(Clone, Copy, Debug, PartialEq, Eq)]
pub struct Outer {
    pub identification: u16,
    pub dont_fragment: bool,
    pub ttl: u8,
    pub protocol: u8,
    pub source: u32,
    pub destination: u32,
}

/// Writes the packet behind its outer header and gives the length; 23, 15.
pub fn wrap(outer: &Outer, packet: &[u8], out: &mut [u8]) -> Result<usize, Refusal> {
    let length = OUTER_HEADER + packet.len();
    let total = u16::try_from(length).map_err(|_| Refusal::TooLong)?;
    let out = out.get_mut(..length).ok_or(Refusal::Room)?;
    let (header, rest) = out.split_at_mut(OUTER_HEADER);
    header[0] = 0x45;
    header[1] = 0;
    header[2..4].copy_from_slice(&total.to_be_bytes());
    header[4..6].copy_from_slice(&outer.identification.to_be_bytes());
    header[6] = if outer.dont_fragment { 0x40 } else { 0 };
    header[7] = 0;
    header[8] = outer.ttl;
    header[9] = outer.protocol;
    header[10..12].fill(0);
    header[12..16].copy_from_slice(&outer.source.to_be_bytes());
    header[16..20].copy_from_slice(&outer.destination.to_be_bytes());
    let sum = checksum(0, header);
    header[10..12].copy_from_slice(&(!sum).to_be_bytes());
    rest.copy_from_slice(packet);
    Ok(length)
}

/// Whether a packet that is too big is answered by no message (R8.2): its source is no host, or what follows its header draws none.
pub fn unanswered(packet: &[u8]) -> bool {
    no_host(&address_at(packet, 8)) || !draws_message(packet[6], &packet[INNER_HEADER..])
}

/// Whether the extension headers of a packet end in it, with no fragment but a first one, and what stands behind them is neither an ICMPv6
/// error nor a redirect, nor ICMPv6 with no byte left (R25).
fn draws_message(mut next: u8, mut rest: &[u8]) -> bool {
    while EXTENSIONS.contains(&next) {
        // None is shorter than 8 bytes.
        if rest.len() < 8 {
            return false;
        }
        let length = if next == FRAGMENT { 8 } else { 8 * (usize::from(rest[1]) + 1) };
        let later = next == FRAGMENT && u16_at(rest, 2) >> 3 != 0;
        if later || rest.len() < length {
            return false;
        }
        (next, rest) = (rest[0], &rest[length..]);
    }
    next != ICMPV6 || rest.first().is_some_and(|&kind| kind >= 128 && kind != REDIRECT)
}

/// Writes an IPv6 header before an ICMPv6 message that stands in `out` from byte 40 on, and the message's checksum.
fn finish_message(out: &mut [u8], hop_limit: u8, source: &Address, destination: &Address) {
    let length = (out.len() - INNER_HEADER) as u16;
    out[..4].copy_from_slice(&[0x60, 0, 0, 0]);
    out[4..6].copy_from_slice(&length.to_be_bytes());
    out[6] = ICMPV6;
    out[7] = hop_limit;
    out[8..24].copy_from_slice(source);
    out[24..40].copy_from_slice(destination);
    out[42..44].fill(0);
    let sum = icmpv6_sum(out);
    out[42..44].copy_from_slice(&(!sum).to_be_bytes());
}

/// Writes the Packet Too Big that answers a packet and gives its length; 8 (under 40 bytes), 15.
pub fn too_big(reporting: &Address, size: u16, packet: &[u8], out: &mut [u8]) -> Result<usize, Refusal> {
    if packet.len() < INNER_HEADER {
        return Err(Refusal::InnerMalformed);
    }
    let quote = &packet[..packet.len().min(QUOTED)];
    let length = INNER_HEADER + 8 + quote.len();
    let out = out.get_mut(..length).ok_or(Refusal::Room)?;
    out[40..44].copy_from_slice(&[2, 0, 0, 0]);
    out[44..48].copy_from_slice(&u32::from(size).to_be_bytes());
    out[48..].copy_from_slice(quote);
    finish_message(out, 64, reporting, &address_at(packet, 8));
    Ok(length)
}

/// Writes a router solicitation from our link-local address to the router's and gives its length; 15.
pub fn solicitation(locator: u32, router: u32, out: &mut [u8]) -> Result<usize, Refusal> {
    let out = out.get_mut(..48).ok_or(Refusal::Room)?;
    out[40..48].copy_from_slice(&[SOLICITATION, 0, 0, 0, 0, 0, 0, 0]);
    finish_message(out, 255, &link_local(locator), &link_local(router));
    Ok(48)
}

/// The message of a packet that is valid but for its source and options: of that type, and at least so long.
#[inline]
fn router_message(packet: &[u8], kind: u8, least: usize) -> Option<&[u8]> {
    let message = &packet[INNER_HEADER..];
    let valid = packet[6] == ICMPV6
        && packet[7] == 255
        && message.len() >= least
        && message[0] == kind
        && message[1] == 0
        && icmpv6_right(packet);
    valid.then_some(message)
}

/// Hands over each option; `None` where one has length 0 or they do not end where the bytes do.
#[inline]
fn each_option(mut options: &[u8], mut seen: impl FnMut(&[u8])) -> Option<()> {
    while !options.is_empty() {
        if options.len() < 2 || options[1] == 0 || usize::from(options[1]) * 8 > options.len() {
            return None;
        }
        let (option, rest) = options.split_at(usize::from(options[1]) * 8);
        seen(option);
        options = rest;
    }
    Some(())
}

/// The lifetime to renew a router by: the smallest that counts of an advertisement, `None` if none does; 20.
pub fn advertised_lifetime(packet: &[u8]) -> Result<Option<u32>, Refusal> {
    let message = router_message(packet, ADVERTISEMENT, 16).ok_or(Refusal::NoAdvertisement)?;
    if !is_link_local(&address_at(packet, 8)) {
        return Err(Refusal::NoAdvertisement);
    }
    let mut smallest = counted(u32::from(u16_at(message, 6)));
    each_option(&message[16..], |option| {
        if matches!((option[0], option[1]), (PREFIX, 4) | (ROUTE, 1..=3)) {
            let lifetime = counted(u32_at(option, 4));
            smallest = smallest.into_iter().chain(lifetime).min();
        }
    })
    .ok_or(Refusal::NoAdvertisement)?;
    Ok(smallest)
}

/// A lifetime, unless it is one of those that do not count.
fn counted(lifetime: u32) -> Option<u32> {
    (lifetime != 0 && lifetime != u32::MAX).then_some(lifetime)
}

/// Who asks by a router solicitation; 24.
pub fn solicited(packet: &[u8]) -> Result<Address, Refusal> {
    let message = router_message(packet, SOLICITATION, 8).ok_or(Refusal::NoSolicitation)?;
    let mut with_source = false;
    each_option(&message[8..], |option| with_source |= option[0] == SOURCE_LINK_LAYER)
        .ok_or(Refusal::NoSolicitation)?;
    let asker = address_at(packet, 8);
    if asker == UNSPECIFIED && with_source {
        return Err(Refusal::NoSolicitation);
    }
    Ok(asker)
}

/// A prefix that a router advertises.
#[derive(Clone, Copy, Debug, Default, PartialEq, Eq)]
pub struct Prefix {
    pub bytes: Address,
    pub length: u8,
    pub on_link: bool,
    pub autonomous: bool,
    pub valid: u32,
    pub preferred: u32,
}

#[derive(Clone, Copy, Debug, Default, PartialEq, Eq)]
pub enum Preference {
    High,
    #[default]
    Medium,
    Low,
}

/// A route that a router advertises.
#[derive(Clone, Copy, Debug, Default, PartialEq, Eq)]
pub struct Route {
    pub bytes: Address,
    pub length: u8,
    pub preference: Preference,
    pub lifetime: u32,
}

/// What an operator has advertised; a count above its array's length is refused with the rest.
#[derive(Clone, Copy, Debug, Default, PartialEq, Eq)]
pub struct Advertisement {
    pub managed: bool,
    pub other: bool,
    pub lifetime: u16,
    pub prefixes: [Prefix; ENTRIES],
    pub prefix_count: usize,
    pub routes: [Route; ENTRIES],
    pub route_count: usize,
}

impl Advertisement {
    /// The prefixes and routes that count; 26.
    fn entries(&self) -> Result<(&[Prefix], &[Route]), Refusal> {
        let prefixes = self.prefixes.get(..self.prefix_count).ok_or(Refusal::Entries)?;
        let routes = self.routes.get(..self.route_count).ok_or(Refusal::Entries)?;
        let mut lengths = prefixes.iter().map(|prefix| prefix.length).chain(routes.iter().map(|route| route.length));
        if lengths.any(|length| length > 128) {
            return Err(Refusal::Entries);
        }
        Ok((prefixes, routes))
    }
}

/// The first `length` bits, and 0 behind them.
fn masked(bytes: &Address, length: u8) -> Address {
    let mask = u128::MAX.checked_shl(128 - u32::from(length)).unwrap_or(0);
    (u128::from_be_bytes(*bytes) & mask).to_be_bytes()
}

impl Prefix {
    const OPTION: usize = 32;

    fn write(&self, option: &mut [u8]) {
        let flags = u8::from(self.on_link) << 7 | u8::from(self.autonomous) << 6;
        option[..4].copy_from_slice(&[PREFIX, 4, self.length, flags]);
        option[4..8].copy_from_slice(&self.valid.to_be_bytes());
        option[8..12].copy_from_slice(&self.preferred.to_be_bytes());
        option[12..16].fill(0);
        option[16..].copy_from_slice(&masked(&self.bytes, self.length));
    }
}

impl Route {
    /// The option's length: the shortest that holds the prefix.
    fn option(&self) -> usize {
        8 + 8 * usize::from(self.length.div_ceil(64))
    }

    fn write(&self, option: &mut [u8]) {
        let preference = match self.preference {
            Preference::High => 0x08,
            Preference::Medium => 0x00,
            Preference::Low => 0x18,
        };
        let units = (self.option() / 8) as u8;
        option[..4].copy_from_slice(&[ROUTE, units, self.length, preference]);
        option[4..8].copy_from_slice(&self.lifetime.to_be_bytes());
        let prefix = masked(&self.bytes, self.length);
        // Copies of a length that is known: one move each.
        match option.len() {
            8 => (),
            16 => option[8..].copy_from_slice(&prefix[..8]),
            _ => option[8..].copy_from_slice(&prefix),
        }
    }
}

/// Writes the advertisement from our link-local address to the asker and gives its length; 26, 15.
pub fn advertisement(
    locator: u32,
    asker: &Address,
    advertised: &Advertisement,
    out: &mut [u8],
) -> Result<usize, Refusal> {
    let (prefixes, routes) = advertised.entries()?;
    let length = 56 + Prefix::OPTION * prefixes.len() + routes.iter().map(Route::option).sum::<usize>();
    let out = out.get_mut(..length).ok_or(Refusal::Room)?;
    let flags = u8::from(advertised.managed) << 7 | u8::from(advertised.other) << 6;
    out[40..46].copy_from_slice(&[ADVERTISEMENT, 0, 0, 0, 0, flags]);
    out[46..48].copy_from_slice(&advertised.lifetime.to_be_bytes());
    out[48..56].fill(0);
    let mut rest = &mut out[56..];
    for prefix in prefixes {
        let (option, behind) = rest.split_at_mut(Prefix::OPTION);
        prefix.write(option);
        rest = behind;
    }
    for route in routes {
        let (option, behind) = rest.split_at_mut(route.option());
        route.write(option);
        rest = behind;
    }
    finish_message(out, 255, &link_local(locator), asker);
    Ok(length)
}
