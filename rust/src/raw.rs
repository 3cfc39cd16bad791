//! The C interface as `include/bogtrumpet.h` has it: its structs, its functions, and each function over slices. All unsafe code of the
//! package is here. Use it where the state is to be read field by field; the safe interface is made of it.
//!
//! Every answer has a `number`, 0 where the call was not refused. The functions over slices are safe: the library takes any values and
//! any bytes, and a slice lends exactly what it may read and write.

#![allow(unsafe_code)]

use std::mem::{align_of, offset_of, size_of};

/// An IPv6 address.
#[repr(C)]
#[derive(Clone, Copy, Debug, Default, PartialEq, Eq)]
pub struct Address {
    /// In the order of the network.
    pub bytes: [u8; 16],
}

/// One of our IPv4 addresses, and the interface that its datagrams arrive on.
#[repr(C)]
#[derive(Clone, Copy, Debug, Default, PartialEq, Eq)]
pub struct Locator {
    /// The address, 10.0.0.1 as `0x0a00_0001`.
    pub address: u32,
    /// The interface's number.
    pub interface: u8,
}

/// What an operator sets of a service. Entries behind a count are not read.
#[repr(C)]
#[derive(Clone, Copy, Debug, PartialEq, Eq)]
pub struct Settings {
    /// 1 to 8, no pair twice, none forbidden.
    pub locators: [Locator; 8],
    /// How many locators there are.
    pub locator_count: usize,
    /// Up to 8 on-link prefixes of 8 bytes, beside fe80::/64.
    pub prefixes: [u8; 64],
    /// How many prefixes there are.
    pub prefix_count: usize,
    /// 0 to 16, distinct, none forbidden or a locator's address.
    pub routers: [u32; 16],
    /// How many routers there are.
    pub router_count: usize,
    /// 576 to 9,216.
    pub link_size: u16,
    /// Of outer headers, 1 to 255.
    pub ttl: u8,
    /// Between solicitations of a router, 1 to 3,600 s.
    pub interval: u16,
    /// Of the first wrapped packet.
    pub identification: u16,
    /// The address that Too Big messages come from, neither multicast nor `::`.
    pub reporting: [u8; 16],
}

/// The router list in force: row by row the IPv4 address of a router, and the time at which it is asked next.
#[repr(C)]
#[derive(Clone, Copy, Debug, PartialEq, Eq)]
pub struct RouterList {
    /// The first `count` are in force.
    pub addresses: [u32; 16],
    /// When each is asked next, which may lie past the last 32-bit second.
    pub dues: [u64; 16],
    /// How many there are.
    pub count: usize,
}

/// What the pieces of one datagram have in common.
#[repr(C)]
#[derive(Clone, Copy, Debug, Default, PartialEq, Eq)]
pub struct Key {
    /// The outer source.
    pub source: u32,
    /// The outer destination.
    pub destination: u32,
    /// The datagram's identification.
    pub identification: u16,
    /// 41.
    pub protocol: u8,
}

/// A datagram of which some pieces have come.
#[repr(C)]
#[derive(Clone, Copy, Debug, Default, PartialEq, Eq)]
pub struct Place {
    /// Which units of 8 bytes of its payload have come: unit u is bit u % 64 of word u / 64.
    pub held: [u64; 4],
    /// What its pieces have in common.
    pub key: Key,
    /// The latest time at its first piece; from 30 s later on the place is free.
    pub first: u32,
    /// The length of its payload, 0 while that is not known.
    pub end: u16,
    /// Where the last of its pieces ends that have more-fragments set.
    pub reach: u16,
    /// 0 where the place is free.
    pub used: u8,
}

/// The datagrams that are collected. What has come of the payload of place k stands in the memory that the caller lends, from byte 2,048 k
/// on.
#[repr(C)]
#[derive(Clone, Copy, Debug, Default, PartialEq, Eq)]
pub struct Collection {
    /// Place 0 to 7.
    pub places: [Place; 8],
}

/// What a service has of its own.
#[repr(C)]
#[derive(Clone, Copy, Debug, PartialEq, Eq)]
pub struct Service {
    /// As they were set: its routers are the first list, also after it was replaced.
    pub settings: Settings,
    /// The list now in force.
    pub routers: RouterList,
    /// The datagrams that are collected.
    pub pieces: Collection,
    /// Of the next wrapped packet.
    pub identification: u16,
}

/// The accepted size reports, newest first: row by row whose report, its size and its time.
#[repr(C)]
#[derive(Clone, Copy, Debug, PartialEq, Eq)]
pub struct Paths {
    /// Whose report.
    pub neighbours: [u32; 64],
    /// Its size.
    pub sizes: [u16; 64],
    /// When it was accepted.
    pub times: [u32; 64],
    /// How many rows there are.
    pub count: usize,
}

/// A node's state: a plain value, which may be copied and kept.
#[repr(C)]
#[derive(Clone, Copy, Debug, PartialEq, Eq)]
pub struct Node {
    /// Service 0.
    pub first: Service,
    /// Service 1, of empty settings where the node has one service.
    pub second: Service,
    /// The accepted size reports, of both services.
    pub paths: Paths,
    /// The latest time seen, in seconds.
    pub latest: u32,
    /// Any value but 0: the node has the second service too.
    pub both: u8,
}

/// A new router list.
#[repr(C)]
#[derive(Clone, Copy, Debug, PartialEq, Eq)]
pub struct Addresses {
    /// The first `count` are the list.
    pub routers: [u32; 16],
    /// How many there are.
    pub count: usize,
}

/// A prefix that an advertisement names. Any value but 0 sets a flag; lifetimes are seconds, `0xffff_ffff` is for ever.
#[repr(C)]
#[derive(Clone, Copy, Debug, Default, PartialEq, Eq)]
pub struct AdvertisedPrefix {
    /// Bits past the length are written as 0.
    pub bytes: [u8; 16],
    /// The valid lifetime.
    pub valid: u32,
    /// The preferred lifetime.
    pub preferred: u32,
    /// In bits, 0 to 128.
    pub length: u8,
    /// The flag L.
    pub on_link: u8,
    /// The flag A.
    pub autonomous: u8,
}

/// A route that an advertisement names.
#[repr(C)]
#[derive(Clone, Copy, Debug, Default, PartialEq, Eq)]
pub struct AdvertisedRoute {
    /// Bits past the length are written as 0.
    pub bytes: [u8; 16],
    /// The route's lifetime, in seconds; `0xffff_ffff` is for ever.
    pub lifetime: u32,
    /// In bits, 0 to 128.
    pub length: u8,
    /// 1 high, 2 low, any other medium.
    pub preference: u8,
}

/// What an operator sets of an advertisement. Entries behind a count are not read.
#[repr(C)]
#[derive(Clone, Copy, Debug, Default, PartialEq, Eq)]
pub struct Advertisement {
    /// In the order in which they are written.
    pub prefixes: [AdvertisedPrefix; 8],
    /// How many prefixes there are.
    pub prefix_count: usize,
    /// In the order in which they are written.
    pub routes: [AdvertisedRoute; 8],
    /// How many routes there are.
    pub route_count: usize,
    /// Of the router as a default router, in seconds.
    pub lifetime: u16,
    /// The flag M; any value but 0 sets it.
    pub managed: u8,
    /// The flag O; any value but 0 sets it.
    pub other: u8,
}

/// Where the inner packet stands: in the datagram, or in the memory of what was joined.
#[repr(C)]
#[derive(Clone, Copy, Debug, PartialEq, Eq)]
pub struct Received {
    /// 0, 2 to 11, 15, or 27 to 30, as the function says.
    pub number: u8,
    /// Whether it stands in the memory.
    pub joined: bool,
    /// Where the inner packet starts.
    pub offset: usize,
    /// Its length.
    pub length: usize,
}

/// What sending answers.
#[repr(C)]
#[derive(Clone, Copy, Debug, PartialEq, Eq)]
pub struct Sent {
    /// 0, 8, 11, 12, 13, 14, 23 or 15.
    pub number: u8,
    /// With 14: the largest packet that passes.
    pub size: u16,
    /// With 0: the length of the datagram written.
    pub length: usize,
    /// With 14: the length of the Too Big message written, or 0 for none.
    pub message_length: usize,
}

/// What a size report answers.
#[repr(C)]
#[derive(Clone, Copy, Debug, PartialEq, Eq)]
pub struct Reported {
    /// 0, or 16 to 19.
    pub number: u8,
    /// The neighbour of an accepted report.
    pub neighbour: u32,
    /// The size now in force toward it, for the service that the report belongs to.
    pub size: u16,
}

/// What the question for the size in force answers.
#[repr(C)]
#[derive(Clone, Copy, Debug, PartialEq, Eq)]
pub struct PathSize {
    /// 0 or 11.
    pub number: u8,
    /// With 0: the size in force.
    pub size: u16,
}

/// What asking answers.
#[repr(C)]
#[derive(Clone, Copy, Debug, PartialEq, Eq)]
pub struct Asked {
    /// 0, 11, 22 or 15.
    pub number: u8,
    /// The router asked.
    pub router: u32,
}

/// What an advertisement answers.
#[repr(C)]
#[derive(Clone, Copy, Debug, PartialEq, Eq)]
pub struct Heard {
    /// 0, 8, 11, 20 or 21.
    pub number: u8,
    /// The router that advertised.
    pub router: u32,
}

/// What advertising answers.
#[repr(C)]
#[derive(Clone, Copy, Debug, PartialEq, Eq)]
pub struct Advertised {
    /// 0, 8, 11, 24, 25, 26 or 15.
    pub number: u8,
    /// With 0: the length of the advertisement written.
    pub length: usize,
}

/// On-link prefixes of 8 bytes, beside fe80::/64; a count above 8 is read as 8.
#[repr(C)]
#[derive(Clone, Copy, Debug, PartialEq, Eq)]
pub struct Prefixes {
    /// One behind the other.
    pub bytes: [u8; 64],
    /// How many there are.
    pub count: usize,
}

/// The IPv4 address that an address embeds.
#[repr(C)]
#[derive(Clone, Copy, Debug, PartialEq, Eq)]
pub struct Embedded {
    /// Whether it embeds one.
    pub found: bool,
    /// That, or 0.
    pub address: u32,
}

/// An outer header as read.
#[repr(C)]
#[derive(Clone, Copy, Debug, PartialEq, Eq)]
pub struct OuterRead {
    /// 0, or 2 to 5.
    pub number: u8,
    /// 41.
    pub protocol: u8,
    /// The header's length, options included.
    pub header: u16,
    /// The datagram's length; bytes behind it are padding.
    pub total: u16,
    /// The outer source.
    pub source: u32,
    /// The outer destination.
    pub destination: u32,
}

/// The fields of an outer header that is written.
#[repr(C)]
#[derive(Clone, Copy, Debug, PartialEq, Eq)]
pub struct Outer {
    /// The datagram's identification.
    pub identification: u16,
    /// Any value but 0 sets the flag.
    pub dont_fragment: u8,
    /// The datagram's time to live.
    pub ttl: u8,
    /// The protocol of what it carries.
    pub protocol: u8,
    /// The outer source.
    pub source: u32,
    /// The outer destination.
    pub destination: u32,
}

/// What a writer answers.
#[repr(C)]
#[derive(Clone, Copy, Debug, PartialEq, Eq)]
pub struct Written {
    /// 0, or 8, 23, 15 as the function says.
    pub number: u8,
    /// With 0: the length written.
    pub length: usize,
}

/// What comparing answers.
#[repr(C)]
#[derive(Clone, Copy, Debug, PartialEq, Eq)]
pub struct Compared {
    /// 0, or 31, 15.
    pub number: u8,
    /// With 0: which recording has more datagrams, 0 neither, 1 the first, 2 the second.
    pub more: u8,
    /// With 0: the length of the report.
    pub length: usize,
}

extern "C" {
    #![allow(missing_docs, clippy::missing_safety_doc)]
    // As the header has them: pointers valid for their lengths, or null with a length of 0.
    pub fn bogtrumpet_defaults(settings: Settings) -> Settings;
    pub fn bogtrumpet_new(node: *mut Node, settings: Settings) -> u8;
    pub fn bogtrumpet_new_pair(node: *mut Node, first: Settings, second: Settings) -> u8;
    pub fn bogtrumpet_receive(
        node: *mut Node,
        service: u8,
        datagram: *const u8,
        length: usize,
        interface: u8,
        time: u32,
        memory: *mut u8,
        memory_length: usize,
    ) -> Received;
    pub fn bogtrumpet_send(
        node: *mut Node,
        service: u8,
        packet: *const u8,
        length: usize,
        next_hop: Address,
        locator: usize,
        time: u32,
        out: *mut u8,
        room: usize,
    ) -> Sent;
    pub fn bogtrumpet_report(node: *mut Node, message: *const u8, length: usize, time: u32) -> Reported;
    pub fn bogtrumpet_replace_routers(node: *mut Node, service: u8, list: Addresses, time: u32) -> u8;
    pub fn bogtrumpet_ask(node: *mut Node, service: u8, locator: usize, time: u32, out: *mut u8, room: usize) -> Asked;
    pub fn bogtrumpet_hear(node: *mut Node, service: u8, packet: *const u8, length: usize, time: u32) -> Heard;
    pub fn bogtrumpet_advertise(
        node: *const Node,
        service: u8,
        packet: *const u8,
        length: usize,
        locator: usize,
        advertisement: Advertisement,
        out: *mut u8,
        room: usize,
    ) -> Advertised;
    pub fn bogtrumpet_path_size(node: *const Node, service: u8, neighbour: u32) -> PathSize;

    pub fn bogtrumpet_checksum(start: u32, bytes: *const u8, length: usize) -> u16;
    pub fn bogtrumpet_checksum_right(bytes: *const u8, length: usize) -> bool;
    pub fn bogtrumpet_forbidden(address: u32) -> bool;
    pub fn bogtrumpet_isatap(prefixes: Prefixes, address: Address) -> Embedded;
    pub fn bogtrumpet_link_local(address: u32) -> Address;
    pub fn bogtrumpet_bad_source(address: Address) -> bool;
    pub fn bogtrumpet_read_outer(datagram: *const u8, length: usize) -> OuterRead;
    pub fn bogtrumpet_unwrap(datagram: *const u8, length: usize) -> Received;
    pub fn bogtrumpet_wrap(outer: Outer, packet: *const u8, length: usize, out: *mut u8, room: usize) -> Written;
    pub fn bogtrumpet_too_big(
        reporting: Address,
        size: u16,
        packet: *const u8,
        length: usize,
        out: *mut u8,
        room: usize,
    ) -> Written;
    pub fn bogtrumpet_solicitation(locator: u32, router: u32, out: *mut u8, room: usize) -> Written;
    pub fn bogtrumpet_compare(
        masked: bool,
        first: *const u8,
        first_length: usize,
        second: *const u8,
        second_length: usize,
        out: *mut u8,
        room: usize,
    ) -> Compared;
}

// SAFETY, of every call below: the library has no precondition on values, and pointers and lengths are those of references and slices.

impl Settings {
    /// No locator, prefix or router, and 0 everywhere: what a node of refused settings has.
    pub const EMPTY: Settings = Settings {
        locators: [Locator { address: 0, interface: 0 }; 8],
        locator_count: 0,
        prefixes: [0; 64],
        prefix_count: 0,
        routers: [0; 16],
        router_count: 0,
        link_size: 0,
        ttl: 0,
        interval: 0,
        identification: 0,
        reporting: [0; 16],
    };

    /// The same locators, prefixes, routers and counts, and the defaults for the rest.
    #[must_use]
    #[inline]
    pub fn defaults(self) -> Settings {
        unsafe { bogtrumpet_defaults(self) }
    }
}

impl Place {
    /// Free, and all values 0.
    const EMPTY: Place = Place {
        held: [0; 4],
        key: Key { source: 0, destination: 0, identification: 0, protocol: 0 },
        first: 0,
        end: 0,
        reach: 0,
        used: 0,
    };
}

impl Service {
    /// The service of empty settings: all values 0.
    pub const EMPTY: Service = Service {
        settings: Settings::EMPTY,
        routers: RouterList { addresses: [0; 16], dues: [0; 16], count: 0 },
        pieces: Collection { places: [Place::EMPTY; 8] },
        identification: 0,
    };
}

/// The service is 0 or 1. Every other number, and a service that the node has not, gives 11 before the numbers that stand at the call.
impl Node {
    /// The node of empty settings: all values 0.
    pub const EMPTY: Node = Node {
        first: Service::EMPTY,
        second: Service::EMPTY,
        paths: Paths { neighbours: [0; 64], sizes: [0; 64], times: [0; 64], count: 0 },
        latest: 0,
        both: 0,
    };

    /// Fills the node, whatever stood there: a node of one service. Numbers: 1.
    #[must_use]
    #[inline]
    pub fn set_up(&mut self, settings: Settings) -> u8 {
        unsafe { bogtrumpet_new(self, settings) }
    }

    /// Fills the node, whatever stood there: a node of two services. Numbers: 1.
    #[must_use]
    #[inline]
    pub fn set_up_pair(&mut self, first: Settings, second: Settings) -> u8 {
        unsafe { bogtrumpet_new_pair(self, first, second) }
    }

    /// Numbers, in this order: 15, 2, 3, 4, 6, 7; then of a piece 30, 29, 28, 27; then of a whole datagram, and of what a piece completes,
    /// 8, 9, 10.
    #[must_use]
    #[inline]
    pub fn receive(&mut self, service: u8, datagram: &[u8], interface: u8, time: u32, memory: &mut [u8]) -> Received {
        let (bytes, room) = (memory.as_mut_ptr(), memory.len());
        unsafe { bogtrumpet_receive(self, service, datagram.as_ptr(), datagram.len(), interface, time, bytes, room) }
    }

    /// Numbers, in this order: 8, 11, 12, 13, 14, 23, 15.
    #[must_use]
    #[inline]
    pub fn send(
        &mut self,
        service: u8,
        packet: &[u8],
        next_hop: Address,
        locator: usize,
        time: u32,
        out: &mut [u8],
    ) -> Sent {
        let (output, room) = (out.as_mut_ptr(), out.len());
        unsafe { bogtrumpet_send(self, service, packet.as_ptr(), packet.len(), next_hop, locator, time, output, room) }
    }

    /// Numbers, in this order: 16, 17, 18, 19.
    #[must_use]
    #[inline]
    pub fn report(&mut self, message: &[u8], time: u32) -> Reported {
        unsafe { bogtrumpet_report(self, message.as_ptr(), message.len(), time) }
    }

    /// The number: 0, or 1.
    #[must_use]
    #[inline]
    pub fn replace_routers(&mut self, service: u8, list: Addresses, time: u32) -> u8 {
        unsafe { bogtrumpet_replace_routers(self, service, list, time) }
    }

    /// Numbers, in this order: 11, 22, 15.
    #[must_use]
    #[inline]
    pub fn ask(&mut self, service: u8, locator: usize, time: u32, out: &mut [u8]) -> Asked {
        unsafe { bogtrumpet_ask(self, service, locator, time, out.as_mut_ptr(), out.len()) }
    }

    /// Numbers, in this order: 8, 20, 21.
    #[must_use]
    #[inline]
    pub fn hear(&mut self, service: u8, packet: &[u8], time: u32) -> Heard {
        unsafe { bogtrumpet_hear(self, service, packet.as_ptr(), packet.len(), time) }
    }

    /// Numbers, in this order: 8, 11, 24, 25, 26, 15.
    #[must_use]
    #[inline]
    pub fn advertise(
        &self,
        service: u8,
        packet: &[u8],
        locator: usize,
        advertisement: Advertisement,
        out: &mut [u8],
    ) -> Advertised {
        let (bytes, room) = (out.as_mut_ptr(), out.len());
        unsafe {
            bogtrumpet_advertise(self, service, packet.as_ptr(), packet.len(), locator, advertisement, bytes, room)
        }
    }

    /// The path size in force for the service toward the neighbour, at the latest time.
    #[must_use]
    #[inline]
    pub fn path_size(&self, service: u8, neighbour: u32) -> PathSize {
        unsafe { bogtrumpet_path_size(self, service, neighbour) }
    }
}

/// The RFC 1071 sum, continued from the two words of `start`.
#[must_use]
#[inline]
pub fn checksum(start: u32, bytes: &[u8]) -> u16 {
    unsafe { bogtrumpet_checksum(start, bytes.as_ptr(), bytes.len()) }
}

/// Whether the sum that includes the checksum field is FFFF.
#[must_use]
#[inline]
pub fn checksum_right(bytes: &[u8]) -> bool {
    unsafe { bogtrumpet_checksum_right(bytes.as_ptr(), bytes.len()) }
}

/// Whether an IPv4 address is forbidden.
#[must_use]
#[inline]
pub fn forbidden(address: u32) -> bool {
    unsafe { bogtrumpet_forbidden(address) }
}

/// The IPv4 address that an ISATAP address embeds.
#[must_use]
#[inline]
pub fn isatap(prefixes: Prefixes, address: Address) -> Embedded {
    unsafe { bogtrumpet_isatap(prefixes, address) }
}

/// The link-local ISATAP address.
#[must_use]
#[inline]
pub fn link_local(address: u32) -> Address {
    unsafe { bogtrumpet_link_local(address) }
}

/// Whether an inner source is bad.
#[must_use]
#[inline]
pub fn bad_source(address: Address) -> bool {
    unsafe { bogtrumpet_bad_source(address) }
}

/// Numbers, in this order: 2, 3, 4, 5.
#[must_use]
#[inline]
pub fn read_outer(datagram: &[u8]) -> OuterRead {
    unsafe { bogtrumpet_read_outer(datagram.as_ptr(), datagram.len()) }
}

/// Numbers, in this order: 2, 3, 4, 5, 8.
#[must_use]
#[inline]
pub fn unwrap(datagram: &[u8]) -> Received {
    unsafe { bogtrumpet_unwrap(datagram.as_ptr(), datagram.len()) }
}

/// Numbers, in this order: 23, 15.
#[must_use]
#[inline]
pub fn wrap(outer: Outer, packet: &[u8], out: &mut [u8]) -> Written {
    unsafe { bogtrumpet_wrap(outer, packet.as_ptr(), packet.len(), out.as_mut_ptr(), out.len()) }
}

/// Numbers, in this order: 8, 15.
#[must_use]
#[inline]
pub fn too_big(reporting: Address, size: u16, packet: &[u8], out: &mut [u8]) -> Written {
    unsafe { bogtrumpet_too_big(reporting, size, packet.as_ptr(), packet.len(), out.as_mut_ptr(), out.len()) }
}

/// Numbers: 15.
#[must_use]
#[inline]
pub fn solicitation(locator: u32, router: u32, out: &mut [u8]) -> Written {
    unsafe { bogtrumpet_solicitation(locator, router, out.as_mut_ptr(), out.len()) }
}

/// Numbers, in this order: 31, 15.
#[must_use]
#[inline]
pub fn compare(masked: bool, first: &[u8], second: &[u8], out: &mut [u8]) -> Compared {
    let (report, room) = (out.as_mut_ptr(), out.len());
    unsafe { bogtrumpet_compare(masked, first.as_ptr(), first.len(), second.as_ptr(), second.len(), report, room) }
}

// The header asserts the same of the C structs, and the places of all fields.
const _: () = {
    assert!(size_of::<Node>() == 2448 && align_of::<Node>() == 8, "the archive is for 64-bit targets");
    assert!(offset_of!(Node, second) == 896 && offset_of!(Node, paths) == 1792);
    assert!(offset_of!(Node, latest) == 2440 && offset_of!(Node, both) == 2444);
    assert!(size_of::<Settings>() == 240 && size_of::<Paths>() == 648 && size_of::<Sent>() == 24);
    assert!(size_of::<Key>() == 12 && size_of::<Place>() == 56 && size_of::<Received>() == 24);
    assert!(size_of::<PathSize>() == 4 && offset_of!(PathSize, size) == 2);
    assert!(size_of::<Compared>() == 16 && offset_of!(Compared, length) == 8);
    assert!(
        size_of::<AdvertisedPrefix>() == 28 && size_of::<AdvertisedRoute>() == 24 && size_of::<Advertisement>() == 440
    );
};
