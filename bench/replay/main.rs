//! `replay` (docs/REPLAY.md) in plain Rust: the program that the proved one is timed against. The whole input is held, and lines are written
//! through a buffer.

#[path = "../../tests/boundary/plain.rs"]
#[allow(dead_code)]
mod plain;

use plain::rules::{address_at, u16_at, u32_at, Preference, Prefix, Route};
use plain::{Address, Advertisement, Locator, Node, Received, Refusal, Sent, Settings};
use std::io::{self, BufWriter, Read, Write};
use std::net::Ipv4Addr;

const LIMIT: usize = 1 << 20;
const MEMORY: usize = 65535;
/// What each byte of an output holds before a call, and of a memory before the first one.
const BLANK: u8 = 0xa5;

/// What is left of the input; reading gives nothing where that is cut off.
struct Reader<'a>(&'a [u8]);

impl<'a> Reader<'a> {
    fn take(&mut self, count: usize) -> Option<&'a [u8]> {
        let (taken, rest) = self.0.split_at_checked(count)?;
        self.0 = rest;
        Some(taken)
    }

    fn byte(&mut self) -> Option<u8> {
        self.take(1).map(|bytes| bytes[0])
    }

    fn word(&mut self) -> Option<u16> {
        self.take(2).map(|bytes| u16_at(bytes, 0))
    }

    fn quad(&mut self) -> Option<u32> {
        self.take(4).map(|bytes| u32_at(bytes, 0))
    }

    fn address(&mut self) -> Option<Address> {
        self.take(16).map(|bytes| address_at(bytes, 0))
    }

    /// Bytes behind their length.
    fn counted(&mut self) -> Option<&'a [u8]> {
        let length = self.word()?;
        self.take(length.into())
    }

    /// Records of one size behind their count.
    fn records(&mut self, size: usize) -> Option<&'a [u8]> {
        let count = self.word()?;
        self.take(usize::from(count) * size)
    }

    fn service(&mut self) -> Option<u8> {
        self.byte().filter(|&service| service <= 1)
    }

    fn settings(&mut self) -> Option<Settings> {
        let mut settings = Settings::default();
        let (locators, prefixes, routers) = (self.records(5)?, self.records(8)?, self.records(4)?);
        settings.locator_count = filled(&mut settings.locators, locators, 5, |record| Locator {
            address: u32_at(record, 0),
            interface: record[4],
        });
        settings.prefix_count =
            filled(&mut settings.prefixes, prefixes, 8, |record| record.try_into().expect("eight bytes"));
        settings.router_count = filled(&mut settings.routers, routers, 4, |record| u32_at(record, 0));
        settings = settings.defaults();
        (settings.link_size, settings.ttl) = (self.word()?, self.byte()?);
        (settings.interval, settings.identification) = (self.word()?, self.word()?);
        match self.byte()? {
            0 => {}
            1 => settings.reporting = self.address()?,
            _ => return None,
        }
        Some(settings)
    }

    fn advertisement(&mut self) -> Option<Advertisement> {
        let (flags, lifetime) = (self.byte()?, self.word()?);
        let (managed, other) = (flags & 0x80 != 0, flags & 0x40 != 0);
        let mut advertised = Advertisement { managed, other, lifetime, ..Advertisement::default() };
        let (prefixes, routes) = (self.records(26)?, self.records(22)?);
        if routes.chunks_exact(22).any(|route| route[1] > 2) {
            return None;
        }
        advertised.prefix_count = filled(&mut advertised.prefixes, prefixes, 26, prefix);
        advertised.route_count = filled(&mut advertised.routes, routes, 22, route);
        Some(advertised)
    }

    fn call(&mut self) -> Option<Call<'a>> {
        Some(match self.byte()? {
            1 => Call::Receive(self.service()?, self.byte()?, self.quad()?, self.word()?, self.counted()?),
            2 => Call::Send {
                service: self.service()?,
                locator: self.byte()?,
                time: self.quad()?,
                hop: self.address()?,
                room: self.word()?,
                packet: self.counted()?,
            },
            3 => Call::Report(self.quad()?, self.counted()?),
            4 => Call::Routers(self.service()?, self.quad()?, self.records(4)?),
            5 => Call::Ask(self.service()?, self.byte()?, self.quad()?, self.word()?),
            6 => Call::Advertisement(self.service()?, self.quad()?, self.counted()?),
            7 => Call::Size(self.service()?, self.quad()?),
            8 => Call::Advertise {
                service: self.service()?,
                locator: self.byte()?,
                room: self.word()?,
                advertised: self.advertisement()?,
                packet: self.counted()?,
            },
            9 => Call::Memory(self.service()?),
            10 => Call::Part(self.service()?, self.byte()?, self.counted()?),
            _ => return None,
        })
    }
}

/// Fills the array from the records, as far as both go, and gives their number.
fn filled<T>(array: &mut [T], records: &[u8], size: usize, read: impl Fn(&[u8]) -> T) -> usize {
    for (entry, record) in array.iter_mut().zip(records.chunks_exact(size)) {
        *entry = read(record);
    }
    records.len() / size
}

fn prefix(record: &[u8]) -> Prefix {
    Prefix {
        bytes: address_at(record, 10),
        length: record[0],
        on_link: record[1] & 0x80 != 0,
        autonomous: record[1] & 0x40 != 0,
        valid: u32_at(record, 2),
        preferred: u32_at(record, 6),
    }
}

fn route(record: &[u8]) -> Route {
    let preference = [Preference::Medium, Preference::High, Preference::Low][usize::from(record[1])];
    Route { bytes: address_at(record, 6), length: record[0], preference, lifetime: u32_at(record, 2) }
}

enum Call<'a> {
    /// Service, interface, time, room and datagram.
    Receive(u8, u8, u32, u16, &'a [u8]),
    Send { service: u8, locator: u8, time: u32, hop: Address, room: u16, packet: &'a [u8] },
    Report(u32, &'a [u8]),
    Routers(u8, u32, &'a [u8]),
    /// Service, locator, time and room.
    Ask(u8, u8, u32, u16),
    Advertisement(u8, u32, &'a [u8]),
    Size(u8, u32),
    Advertise { service: u8, locator: u8, room: u16, advertised: Advertisement, packet: &'a [u8] },
    Memory(u8),
    Part(u8, u8, &'a [u8]),
}

/// The 32-bit FNV-1a hash.
fn digest(bytes: &[u8]) -> u32 {
    bytes.iter().fold(2166136261, |hash, &byte| (hash ^ u32::from(byte)).wrapping_mul(16777619))
}

/// The calls' node, the room for outputs and the memory of each service.
struct Replay {
    node: Node,
    output: Vec<u8>,
    memories: [Vec<u8>; 2],
}

impl Replay {
    fn new(node: Node) -> Replay {
        Replay { node, output: vec![BLANK; MEMORY], memories: [vec![BLANK; MEMORY], vec![BLANK; MEMORY]] }
    }

    /// Makes the call and writes its line.
    fn make(&mut self, call: &Call, lines: &mut impl Write) -> io::Result<()> {
        match *call {
            Call::Receive(service, interface, time, room, datagram) => {
                let memory = &mut self.memories[usize::from(service)][..room.into()];
                write_received(self.node.receive(service, datagram, interface, time, memory), memory, lines)
            }
            Call::Report(time, message) => match self.node.report(message, time) {
                Ok((neighbour, size)) => writeln!(lines, "report accepted {} {size}", Ipv4Addr::from(neighbour)),
                Err(refusal) => writeln!(lines, "report refuse {}", refusal as u8),
            },
            Call::Routers(service, time, routers) => self.routers(service, time, routers, lines),
            Call::Advertisement(service, time, packet) => match self.node.hear(service, packet, time) {
                Ok(router) => writeln!(lines, "advertisement {}", Ipv4Addr::from(router)),
                Err(refusal) => writeln!(lines, "advertisement refuse {}", refusal as u8),
            },
            Call::Size(service, neighbour) => match self.node.path_size(service, neighbour) {
                Ok(size) => writeln!(lines, "size {size}"),
                Err(refusal) => writeln!(lines, "size refuse {}", refusal as u8),
            },
            Call::Memory(service) => {
                writeln!(lines, "memory {:08x}", digest(&self.memories[usize::from(service)]))
            }
            Call::Part(service, interface, datagram) => {
                let part = self.node.received_part(service, datagram, interface);
                writeln!(lines, "part {} {:08x}", part.len(), digest(part))
            }
            _ => self.make_writing(call, lines),
        }
    }

    fn routers(&mut self, service: u8, time: u32, records: &[u8], lines: &mut impl Write) -> io::Result<()> {
        let routers: Vec<u32> = records.chunks_exact(4).map(|record| u32_at(record, 0)).collect();
        match self.node.replace_routers(service, &routers, time) {
            Ok(()) => writeln!(lines, "routers accepted {}", routers.len()),
            Err(refusal) => writeln!(lines, "routers refuse {}", refusal as u8),
        }
    }

    /// A call with an output.
    fn make_writing(&mut self, call: &Call, lines: &mut impl Write) -> io::Result<()> {
        match *call {
            Call::Send { service, locator, time, ref hop, room, packet } => {
                let out = blank(&mut self.output, room);
                match self.node.send(service, packet, hop, locator.into(), time, out) {
                    Ok(Sent::Wrapped { length }) => writeln!(lines, "send wrapped {length} {:08x}", digest(out)),
                    Ok(Sent::TooBig { size, length }) => {
                        writeln!(lines, "send too-big {size} {length} {:08x}", digest(out))
                    }
                    Err(refusal) => writeln!(lines, "send refuse {} {:08x}", refusal as u8, digest(out)),
                }
            }
            Call::Ask(service, locator, time, room) => {
                let out = blank(&mut self.output, room);
                match self.node.ask(service, locator.into(), time, out) {
                    Ok(router) => writeln!(lines, "ask {} {:08x}", Ipv4Addr::from(router), digest(out)),
                    Err(refusal) => writeln!(lines, "ask refuse {} {:08x}", refusal as u8, digest(out)),
                }
            }
            Call::Advertise { service, locator, room, ref advertised, packet } => {
                let out = blank(&mut self.output, room);
                match self.node.advertise(service, packet, locator.into(), advertised, out) {
                    Ok(length) => writeln!(lines, "advertise written {length} {:08x}", digest(out)),
                    Err(refusal) => writeln!(lines, "advertise refuse {} {:08x}", refusal as u8, digest(out)),
                }
            }
            _ => unreachable!("a call without an output"),
        }
    }
}

/// An output of so many bytes, as it is before a call.
fn blank(output: &mut [u8], room: u16) -> &mut [u8] {
    let out = &mut output[..room.into()];
    out.fill(BLANK);
    out
}

fn write_received(answer: Result<Received, Refusal>, memory: &[u8], lines: &mut impl Write) -> io::Result<()> {
    match answer {
        Ok(Received::Whole(place)) => writeln!(lines, "receive deliver {} {}", place.start, place.len()),
        Ok(Received::Joined(place)) => {
            writeln!(lines, "receive joined {} {} {:08x}", place.start, place.len(), digest(&memory[place.clone()]))
        }
        Err(refusal) => writeln!(lines, "receive refuse {}", refusal as u8),
    }
}

/// The node of the input, which may be refused, and its calls; nothing where the input is bad.
fn read(input: &[u8]) -> Option<(Result<Node, Refusal>, &[u8])> {
    let mut reader = Reader(input);
    let services = reader.byte()?;
    let first = reader.settings()?;
    let node = match services {
        1 => Node::new(&first),
        2 => Node::new_pair(&first, &reader.settings()?),
        _ => return None,
    };
    let calls = reader.0;
    while !reader.0.is_empty() {
        reader.call()?;
    }
    (input.len() <= LIMIT).then_some((node, calls))
}

fn main() -> io::Result<()> {
    let mut input = Vec::new();
    io::stdin().lock().take(LIMIT as u64 + 1).read_to_end(&mut input)?;
    let mut lines = BufWriter::with_capacity(1 << 16, io::stdout().lock());
    let Some((node, calls)) = read(&input) else {
        return writeln!(lines, "bad input");
    };
    match node {
        Ok(node) => {
            let (mut replay, mut reader) = (Replay::new(node), Reader(calls));
            while let Some(call) = reader.call() {
                replay.make(&call, &mut lines)?;
            }
        }
        Err(refusal) => writeln!(lines, "settings refuse {}", refusal as u8)?,
    }
    lines.flush()
}
