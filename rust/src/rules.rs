//! The rules without state: checksums, addresses, headers and messages, and the comparing of recordings. They need no node.

use crate::raw;
use crate::refusal::{unless, Refusal};
use crate::settings::{flat, Prefix};
use crate::RUN_LENGTH;
use std::net::{Ipv4Addr, Ipv6Addr};

/// An outer header as read.
#[derive(Clone, Copy, Debug, PartialEq, Eq)]
pub struct OuterRead {
    /// The header's length, options included.
    pub header: u16,
    /// The datagram's length; bytes behind it are padding.
    pub total: u16,
    /// The outer source.
    pub source: Ipv4Addr,
    /// The outer destination.
    pub destination: Ipv4Addr,
}

/// The fields of an outer header that is written.
#[derive(Clone, Copy, Debug, PartialEq, Eq)]
pub struct Outer {
    /// The datagram's identification.
    pub identification: u16,
    /// Whether the datagram may not be cut.
    pub dont_fragment: bool,
    /// The datagram's time to live.
    pub ttl: u8,
    /// The protocol of what it carries, 41 for an IPv6 packet.
    pub protocol: u8,
    /// The outer source.
    pub source: Ipv4Addr,
    /// The outer destination.
    pub destination: Ipv4Addr,
}

/// Which of two recordings has more datagrams.
#[derive(Clone, Copy, Debug, PartialEq, Eq)]
pub enum More {
    /// The first one.
    First,
    /// The second one.
    Second,
    /// They have as many.
    Neither,
}

/// A run of bytes in which two datagrams differ, as long as can be.
#[derive(Clone, Copy, Debug, PartialEq, Eq)]
pub struct Run {
    /// Which datagrams of the recordings they are, from 1 on.
    pub datagram: u16,
    /// Where the run starts, from 0 on.
    pub offset: u16,
    /// How many bytes it has, at least 1.
    pub length: u16,
}

/// What comes of two recordings that are compared.
#[derive(Clone, Copy, Debug, PartialEq, Eq)]
pub struct Compared<'o> {
    /// The part of the output that holds the report.
    pub report: &'o [u8],
    /// Which recording has more datagrams.
    pub more: More,
}

impl<'o> Compared<'o> {
    /// The runs of the report, in their order.
    #[must_use]
    pub fn runs(self) -> impl ExactSizeIterator<Item = Run> + 'o {
        let word = |run: &[u8], at| u16::from_be_bytes([run[at], run[at + 1]]);
        let read = move |run| Run { datagram: word(run, 0), offset: word(run, 2), length: word(run, 4) };
        self.report.chunks_exact(RUN_LENGTH).map(read)
    }
}

/// The RFC 1071 sum of the bytes, continued from the two words of `start`: the sum itself, not its complement.
///
/// ```
/// assert_eq!(bogtrumpet::rules::checksum(0, &[0x00, 0x01, 0xf2, 0x03, 0xf4, 0xf5, 0xf6, 0xf7]), 0xddf2);
/// ```
#[must_use]
#[inline]
pub fn checksum(start: u32, bytes: &[u8]) -> u16 {
    raw::checksum(start, bytes)
}

/// Whether the sum that includes the checksum field is FFFF.
#[must_use]
#[inline]
pub fn checksum_right(bytes: &[u8]) -> bool {
    raw::checksum_right(bytes)
}

/// 0.0.0.0, 127.0.0.0/8, 224.0.0.0/4 and 255.255.255.255.
#[must_use]
pub fn forbidden(address: Ipv4Addr) -> bool {
    raw::forbidden(address.into())
}

/// The IPv4 address that an ISATAP address embeds: one of the first 8 prefixes or fe80::/64, 00 or 02, 00, 5E, FE, the address.
///
/// ```
/// use bogtrumpet::rules::{isatap, link_local};
/// use std::net::Ipv4Addr;
///
/// let address = Ipv4Addr::new(10, 0, 0, 2);
/// assert_eq!(isatap(&[], link_local(address)), Some(address));
/// assert_eq!(isatap(&[], "2001:db8::5efe:10.0.0.2".parse().unwrap()), None);
/// ```
#[must_use]
pub fn isatap(prefixes: &[Prefix], address: Ipv6Addr) -> Option<Ipv4Addr> {
    let prefixes = raw::Prefixes { bytes: flat(prefixes), count: prefixes.len() };
    let embedded = raw::isatap(prefixes, raw::Address { bytes: address.octets() });
    embedded.found.then(|| embedded.address.into())
}

/// The link-local ISATAP address that is formed of an IPv4 address, fe80::5efe:a.b.c.d.
#[must_use]
pub fn link_local(address: Ipv4Addr) -> Ipv6Addr {
    raw::link_local(address.into()).bytes.into()
}

/// Whether an inner source is bad: ff00::/8, `::`, `::1`, or 96 zero bits and a forbidden IPv4 address.
#[must_use]
pub fn bad_source(address: Ipv6Addr) -> bool {
    raw::bad_source(raw::Address { bytes: address.octets() })
}

/// The outer header of a datagram of protocol 41.
///
/// # Errors
/// In this order: [`Refusal::OuterMalformed`], [`Refusal::OuterChecksum`], [`Refusal::OtherProtocol`], [`Refusal::Piece`].
pub fn read_outer(datagram: &[u8]) -> Result<OuterRead, Refusal> {
    let read = raw::read_outer(datagram);
    unless(read.number, || OuterRead {
        header: read.header,
        total: read.total,
        source: read.source.into(),
        destination: read.destination.into(),
    })
}

/// The inner packet, whatever the addresses are, as the part of the datagram that holds it.
///
/// # Errors
/// In this order: those of [`read_outer`], [`Refusal::InnerMalformed`].
pub fn unwrap(datagram: &[u8]) -> Result<&[u8], Refusal> {
    let part = raw::unwrap(datagram);
    unless(part.number, || &datagram[part.offset..][..part.length])
}

/// Writes the packet, any bytes, behind its outer header, and gives the part of the output that was written.
///
/// # Errors
/// In this order: [`Refusal::WrappedTooLong`], [`Refusal::OutputShort`].
pub fn wrap<'o>(outer: &Outer, packet: &[u8], out: &'o mut [u8]) -> Result<&'o [u8], Refusal> {
    let fields = raw::Outer {
        identification: outer.identification,
        dont_fragment: outer.dont_fragment.into(),
        ttl: outer.ttl,
        protocol: outer.protocol,
        source: outer.source.into(),
        destination: outer.destination.into(),
    };
    let written = raw::wrap(fields, packet, out);
    part(written, out)
}

/// Writes an ICMPv6 Packet Too Big about the packet, whatever it holds, to its source, whoever that is, and gives the part of the output
/// that was written. Whether one may be sent, [`Node::send`](crate::Node::send) alone judges.
///
/// # Errors
/// In this order: [`Refusal::InnerMalformed`] (under 40 bytes), [`Refusal::OutputShort`].
pub fn too_big<'o>(reporting: Ipv6Addr, size: u16, packet: &[u8], out: &'o mut [u8]) -> Result<&'o [u8], Refusal> {
    let written = raw::too_big(raw::Address { bytes: reporting.octets() }, size, packet, out);
    part(written, out)
}

/// Writes a router solicitation from the locator's link-local address to the router's, and gives the part of the output that was
/// written.
///
/// # Errors
/// [`Refusal::OutputShort`].
pub fn solicitation(locator: Ipv4Addr, router: Ipv4Addr, out: &mut [u8]) -> Result<&[u8], Refusal> {
    let written = raw::solicitation(locator.into(), router.into(), out);
    part(written, out)
}

/// Compares two recordings, each a two-byte count and so many datagrams, each an interface, a two-byte length and the bytes, and writes a
/// report of each longest run of differing bytes. Bytes past the shorter datagram's end differ; interfaces, and datagrams without a partner,
/// are not compared. Where `masked`, identification, TTL and checksum count as equal where both datagrams have the byte. All numbers of two
/// bytes are big-endian.
///
/// ```
/// use bogtrumpet::rules::{compare, More, Run};
///
/// // One datagram of three bytes, on interface 0, and one of four, on interface 1.
/// let (first, second) = ([0, 1, 0, 0, 3, 7, 7, 7], [0, 1, 1, 0, 4, 7, 7, 8, 8]);
/// let mut out = [0; 6];
/// let compared = compare(false, &first, &second, &mut out)?;
/// assert_eq!(compared.more, More::Neither);
/// assert!(compared.runs().eq([Run { datagram: 1, offset: 2, length: 2 }]));
/// # Ok::<(), bogtrumpet::Refusal>(())
/// ```
///
/// # Errors
/// In this order: [`Refusal::RecordingMalformed`], [`Refusal::OutputShort`].
pub fn compare<'o>(masked: bool, first: &[u8], second: &[u8], out: &'o mut [u8]) -> Result<Compared<'o>, Refusal> {
    let compared = raw::compare(masked, first, second, out);
    let more = match compared.more {
        1 => More::First,
        2 => More::Second,
        _ => More::Neither,
    };
    let out: &[u8] = out;
    unless(compared.number, || Compared { report: &out[..compared.length], more })
}

fn part(written: raw::Written, out: &mut [u8]) -> Result<&[u8], Refusal> {
    let out: &[u8] = out;
    unless(written.number, || &out[..written.length])
}
