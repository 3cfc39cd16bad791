//! One tunnel end, or two in one box.

use crate::advertisement::Advertisement;
use crate::raw;
use crate::refusal::{unless, Refusal};
use crate::settings::{numbers, Settings};
use std::net::{Ipv4Addr, Ipv6Addr};

/// One tunnel end, or two in one box: a node has one service or two. A plain value of 2,448 bytes: a copy keeps the state that it had.
///
/// Each service has settings, a router list, an identification and a collection of pieces of its own; the kept path sizes and the latest
/// time are the node's, and both services share them. Every call but [`report`](Node::report) names its service, and what it says of
/// locators, routers and prefixes is meant of that one. A service that the node has not gives [`Refusal::NoLocator`], before all else that a
/// call is refused by; the call's time counts.
#[derive(Clone, Copy, Debug)]
pub struct Node {
    raw: raw::Node,
}

/// The service that a call names.
#[derive(Clone, Copy, Debug, PartialEq, Eq, Hash)]
#[repr(u8)]
pub enum ServiceName {
    /// The one that every node has.
    First = 0,
    /// The other one, of a node that [`Node::new_pair`] made.
    Second = 1,
}

impl ServiceName {
    /// The number that C names it by.
    #[must_use]
    pub fn number(self) -> u8 {
        self as u8
    }
}

/// The inner packet of a datagram, as the part that holds it of what was lent.
#[derive(Clone, Copy, Debug, PartialEq, Eq)]
#[must_use]
pub enum Received<'d, 'm> {
    /// Of a datagram that came whole: it stands in the datagram.
    Whole(&'d [u8]),
    /// Of one that came in pieces: it stands in the memory, until a later piece is written over it.
    Joined(&'m [u8]),
}

impl<'p> Received<'p, 'p> {
    /// The packet, wherever it stands.
    #[must_use]
    pub fn packet(self) -> &'p [u8] {
        match self {
            Received::Whole(packet) | Received::Joined(packet) => packet,
        }
    }
}

/// What sending gives: one of two things that go different ways.
#[derive(Clone, Copy, Debug, PartialEq, Eq)]
#[must_use]
pub enum Sent<'o> {
    /// The datagram, for the IPv4 network: the part of the output that was written.
    Wrapped(&'o [u8]),
    /// The packet is too big (number 14).
    TooBig {
        /// The largest packet that passes.
        size: u16,
        /// An ICMPv6 Packet Too Big, an IPv6 packet for the sender of the packet, as the part of the output that was written.
        ///
        /// `None` where none may be sent: where the packet's source is multicast or `::`; where it is an ICMPv6 error or redirect, or ICMPv6
        /// with no byte left, also behind extension headers (hop-by-hop options, routing, fragment, destination options); where these
        /// headers run past the packet; or where one is of a fragment whose offset is not 0.
        message: Option<&'o [u8]>,
    },
}

/// The neighbour of an accepted size report, and the size now in force toward it, for the service that the report belongs to.
#[derive(Clone, Copy, Debug, PartialEq, Eq)]
pub struct Reported {
    /// The neighbour.
    pub neighbour: Ipv4Addr,
    /// The size.
    pub size: u16,
}

/// A router that is asked, and the solicitation for it.
#[derive(Clone, Copy, Debug, PartialEq, Eq)]
#[must_use]
pub struct Asked<'o> {
    /// The router.
    pub router: Ipv4Addr,
    /// An IPv6 packet of 48 bytes, not yet wrapped: the part of the output that was written.
    pub solicitation: &'o [u8],
}

/// A router of the list in force, and the time at which it is asked next, which may lie past the last 32-bit second.
#[derive(Clone, Copy, Debug, PartialEq, Eq)]
pub struct Router {
    /// Its address.
    pub address: Ipv4Addr,
    /// When it is asked next.
    pub due: u64,
}

impl Node {
    /// A node of one service with these settings, and all routers due at time 0.
    ///
    /// # Errors
    /// [`Refusal::Settings`].
    pub fn new(settings: &Settings) -> Result<Node, Refusal> {
        let mut node = Node { raw: raw::Node::EMPTY };
        let number = node.raw.set_up(settings.raw);
        unless(number, || node)
    }

    /// A node of two services with these settings, and all routers due at time 0.
    ///
    /// # Errors
    /// [`Refusal::Settings`]: of either service, or where the two share a locator address, on whatever interfaces.
    pub fn new_pair(first: &Settings, second: &Settings) -> Result<Node, Refusal> {
        let mut node = Node { raw: raw::Node::EMPTY };
        let number = node.raw.set_up_pair(first.raw, second.raw);
        unless(number, || node)
    }

    /// The inner packet of a datagram that arrived on the interface, or of one that this piece completes.
    ///
    /// Up to 8 datagrams are collected at once, each of at most 2,048 bytes of payload, until 30 s from the first piece. What has come of them
    /// stands in the memory, [`MEMORY`](crate::MEMORY) bytes or more: every call of a service is lent the same, as the last one left it. A
    /// repeated piece is compared with what stands there, so who writes into it turns [`Refusal::PieceWaits`] into
    /// [`Refusal::PiecesDisagree`].
    ///
    /// # Errors
    /// In this order: [`Refusal::OutputShort`] (the memory is too short), [`Refusal::OuterMalformed`], [`Refusal::OuterChecksum`],
    /// [`Refusal::OtherProtocol`], [`Refusal::NotForUs`], [`Refusal::OuterSourceForbidden`]; of a piece [`Refusal::PieceUnfit`],
    /// [`Refusal::PiecesDisagree`], [`Refusal::NoPlace`], [`Refusal::PieceWaits`]; of a whole datagram, and of what a piece completes,
    /// [`Refusal::InnerMalformed`], [`Refusal::InnerSourceBad`], [`Refusal::OuterSourceWrong`].
    ///
    /// After [`Refusal::PieceWaits`] and where a completed datagram is refused, what is collected and the memory may be others than before;
    /// after [`Refusal::PiecesDisagree`] what is collected is. [`Refusal::Piece`] is not given.
    #[inline]
    pub fn receive<'d, 'm>(
        &mut self,
        service: ServiceName,
        datagram: &'d [u8],
        interface: u8,
        time: u32,
        memory: &'m mut [u8],
    ) -> Result<Received<'d, 'm>, Refusal> {
        let received = self.raw.receive(service.number(), datagram, interface, time, memory);
        let memory: &'m [u8] = memory;
        unless(received.number, || {
            if received.joined {
                Received::Joined(&memory[received.offset..][..received.length])
            } else {
                Received::Whole(&datagram[received.offset..][..received.length])
            }
        })
    }

    /// Wraps an IPv6 packet for the next hop, from the numbered locator, counted from 0.
    ///
    /// # Errors
    /// In this order: [`Refusal::InnerMalformed`], [`Refusal::NoLocator`], [`Refusal::NextHopNotIsatap`],
    /// [`Refusal::TunnelEndForbidden`], [`Refusal::WrappedTooLong`] (on no node that this interface makes), [`Refusal::OutputShort`].
    /// [`Sent::TooBig`] is judged before the last two; it too needs an output that its message fits in, if it has one. The output is then
    /// as it was.
    #[inline]
    pub fn send<'o>(
        &mut self,
        service: ServiceName,
        packet: &[u8],
        next_hop: Ipv6Addr,
        locator: usize,
        time: u32,
        out: &'o mut [u8],
    ) -> Result<Sent<'o>, Refusal> {
        let next_hop = raw::Address { bytes: next_hop.octets() };
        let sent = self.raw.send(service.number(), packet, next_hop, locator, time, out);
        let out: &'o [u8] = out;
        unless(sent.number, || {
            if sent.number == 0 {
                return Sent::Wrapped(&out[..sent.length]);
            }
            let message = (sent.message_length > 0).then(|| &out[..sent.message_length]);
            Sent::TooBig { size: sent.size, message }
        })
    }

    /// Takes an ICMPv4 message in: a size report (type 3, code 4), quoting a datagram of ours. It belongs to the service whose locator it
    /// quotes, and must be below that service's size in force.
    ///
    /// # Errors
    /// In this order: [`Refusal::ReportMalformed`], [`Refusal::QuoteNotOurs`], [`Refusal::SizeUnusable`], [`Refusal::SizeNotBelow`].
    #[inline]
    pub fn report(&mut self, message: &[u8], time: u32) -> Result<Reported, Refusal> {
        let reported = self.raw.report(message, time);
        unless(reported.number, || Reported { neighbour: reported.neighbour.into(), size: reported.size })
    }

    /// Replaces the router list: a router in both lists keeps its due time, a new one is due now.
    ///
    /// # Errors
    /// [`Refusal::Settings`]: more than 16 routers, one twice, or one that is forbidden or a locator's address.
    pub fn replace_routers(&mut self, service: ServiceName, routers: &[Ipv4Addr], time: u32) -> Result<(), Refusal> {
        let list = raw::Addresses { routers: numbers(routers), count: routers.len() };
        let number = self.raw.replace_routers(service.number(), list, time);
        unless(number, || ())
    }

    /// Writes a router solicitation to the router that is due first, from the numbered locator, counted from 0.
    ///
    /// # Errors
    /// In this order: [`Refusal::NoLocator`], [`Refusal::NoRouterDue`], [`Refusal::OutputShort`].
    pub fn ask<'o>(
        &mut self,
        service: ServiceName,
        locator: usize,
        time: u32,
        out: &'o mut [u8],
    ) -> Result<Asked<'o>, Refusal> {
        let asked = self.raw.ask(service.number(), locator, time, out);
        let out: &'o [u8] = out;
        unless(asked.number, || Asked { router: asked.router.into(), solicitation: &out[..crate::SOLICITATION_LENGTH] })
    }

    /// Takes a router advertisement in, a received inner packet, and names the router, which is asked again by its lifetimes.
    ///
    /// # Errors
    /// In this order: [`Refusal::InnerMalformed`], [`Refusal::AdvertisementInvalid`], [`Refusal::AdvertiserNotListed`].
    pub fn hear(&mut self, service: ServiceName, packet: &[u8], time: u32) -> Result<Ipv4Addr, Refusal> {
        let heard = self.raw.hear(service.number(), packet, time);
        unless(heard.number, || heard.router.into())
    }

    /// Answers a router solicitation, a received inner packet, with a router advertisement from the numbered locator, counted from 0, and
    /// gives the part of the output that was written: an IPv6 packet, not yet wrapped. It is sent from the same locator, with its destination
    /// (bytes 24 to 39) for the next hop; [`Refusal::TunnelEndForbidden`] comes there if the asker embeds a forbidden address or one of ours.
    ///
    /// # Errors
    /// In this order: [`Refusal::InnerMalformed`], [`Refusal::NoLocator`], [`Refusal::SolicitationInvalid`],
    /// [`Refusal::AskerNotIsatap`], [`Refusal::OptionsBad`], [`Refusal::OutputShort`].
    pub fn advertise<'o>(
        &self,
        service: ServiceName,
        packet: &[u8],
        locator: usize,
        advertisement: &Advertisement,
        out: &'o mut [u8],
    ) -> Result<&'o [u8], Refusal> {
        let advertised = self.raw.advertise(service.number(), packet, locator, advertisement.raw, out);
        let out: &'o [u8] = out;
        unless(advertised.number, || &out[..advertised.length])
    }

    /// The path size in force for the service toward the neighbour, at the latest time: the smaller of the service's link size and the
    /// size that is kept, whichever service's report that was.
    ///
    /// # Errors
    /// [`Refusal::NoLocator`]: the node has no such service.
    #[inline]
    pub fn path_size(&self, service: ServiceName, neighbour: Ipv4Addr) -> Result<u16, Refusal> {
        let sized = self.raw.path_size(service.number(), neighbour.into());
        unless(sized.number, || sized.size)
    }

    /// The latest time seen, in seconds.
    #[must_use]
    pub fn latest(&self) -> u32 {
        self.raw.latest
    }

    /// The identification of the service's next wrapped packet.
    ///
    /// # Errors
    /// [`Refusal::NoLocator`]: the node has no such service.
    pub fn identification(&self, service: ServiceName) -> Result<u16, Refusal> {
        self.service(service).map(|service| service.identification)
    }

    /// The service's settings as they were set: their routers are the first list, also after it was replaced.
    ///
    /// # Errors
    /// [`Refusal::NoLocator`]: the node has no such service.
    pub fn settings(&self, service: ServiceName) -> Result<Settings, Refusal> {
        self.service(service).map(|service| Settings { raw: service.settings })
    }

    /// The routers of the service's list now in force.
    ///
    /// # Errors
    /// [`Refusal::NoLocator`]: the node has no such service.
    pub fn routers(&self, service: ServiceName) -> Result<impl Iterator<Item = Router> + '_, Refusal> {
        let list = &self.service(service)?.routers;
        let router = |(&address, &due): (&u32, &u64)| Router { address: address.into(), due };
        Ok(list.addresses.iter().zip(&list.dues).take(list.count).map(router))
    }

    fn service(&self, service: ServiceName) -> Result<&raw::Service, Refusal> {
        match service {
            ServiceName::First => Ok(&self.raw.first),
            ServiceName::Second if self.raw.both != 0 => Ok(&self.raw.second),
            ServiceName::Second => Err(Refusal::NoLocator),
        }
    }

    /// The state, field by field.
    #[must_use]
    pub fn as_raw(&self) -> &raw::Node {
        &self.raw
    }
}
