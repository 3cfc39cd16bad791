//! Two tunnel ends in one program: the centre wraps a packet, the station unwraps it, whole and in pieces, and the centre takes a size
//! report and asks its router. Then a logger that two services share. examples/run builds it and compares what it prints with
//! examples/station.txt.

use bogtrumpet::rules::{checksum, link_local};
use bogtrumpet::ServiceName::{self, First, Second};
use bogtrumpet::{Asked, Locator, Node, Received, Refusal, Reported, Sent, Settings};
use std::net::Ipv4Addr;

const CENTRE: Ipv4Addr = Ipv4Addr::new(10, 0, 0, 1);
const STATION: Ipv4Addr = Ipv4Addr::new(10, 0, 0, 2);
const WEATHER: Ipv4Addr = Ipv4Addr::new(10, 0, 0, 3);
const SEISMIC: Ipv4Addr = Ipv4Addr::new(10, 0, 0, 4);

fn say<T>(call: &str, answer: Result<T, Refusal>) -> Option<T> {
    match &answer {
        Ok(_) => println!("{call}: not refused"),
        Err(refusal) => println!("{call}: {refusal}"),
    }
    answer.ok()
}

/// An IPv6 packet of 40 + 1,440 bytes from the centre's link-local address.
fn packet_from_centre() -> [u8; 1480] {
    let mut packet = [0; 1480];
    packet[0] = 0x60;
    packet[4..6].copy_from_slice(&1440u16.to_be_bytes());
    packet[6] = 17;
    packet[8..24].copy_from_slice(&link_local(CENTRE).octets());
    packet
}

/// A datagram that the station gets at the time, and whether it brings the packet.
fn receive(station: &mut Node, datagram: &[u8], time: u32, memory: &mut [u8], packet: &[u8]) {
    let Some(received) = say("receive", station.receive(First, datagram, 0, time, memory)) else { return };
    let joined = if matches!(received, Received::Joined(_)) { ", joined" } else { "" };
    let inner = received.packet();
    let same = if inner == packet { "as they were sent" } else { "others than were sent" };
    println!("  {} bytes, {same}{joined}", inner.len());
}

/// The piece of a datagram from a byte of its payload on, a multiple of 8, as it is cut for a link of 1,492 bytes.
fn cut(datagram: &[u8], start: usize) -> Vec<u8> {
    let (header, payload) = datagram.split_at(20);
    let end = payload.len().min(start + 1472);
    let mut piece = [header, &payload[start..end]].concat();
    let total = u16::try_from(piece.len()).expect("no longer than a datagram");
    let fragment = u16::try_from(start / 8).expect("an offset in a datagram") | u16::from(end < payload.len()) << 13;
    piece[2..4].copy_from_slice(&total.to_be_bytes());
    piece[6..8].copy_from_slice(&fragment.to_be_bytes());
    piece[10..12].fill(0);
    let sum = checksum(0, &piece[..20]);
    piece[10..12].copy_from_slice(&(!sum).to_be_bytes());
    piece
}

/// A size report of a router between the two about the datagram.
fn size_report(datagram: &[u8], size: u16) -> [u8; 28] {
    let mut message = [0; 28];
    message[..2].copy_from_slice(&[3, 4]);
    message[6..8].copy_from_slice(&size.to_be_bytes());
    message[8..].copy_from_slice(&datagram[..20]);
    let sum = checksum(0, &message);
    message[2..4].copy_from_slice(&(!sum).to_be_bytes());
    message
}

/// Sends the packet to the station, and gives the datagram.
fn send(node: &mut Node, service: ServiceName, packet: &[u8], time: u32) -> Vec<u8> {
    let mut out = [0; 1500];
    match node.send(service, packet, link_local(STATION), 0, time, &mut out) {
        Ok(Sent::Wrapped(datagram)) => {
            println!("send: not refused\n  a datagram of {} bytes", datagram.len());
            datagram.to_vec()
        }
        Ok(Sent::TooBig { size, message }) => {
            let length = message.map_or(0, <[u8]>::len);
            println!("send: packet too big\n  at most {size} pass, a message of {length} bytes for the sender");
            Vec::new()
        }
        Err(refusal) => panic!("send: {refusal}"),
    }
}

fn report(node: &mut Node, datagram: &[u8], size: u16, time: u32) {
    let Reported { neighbour, size } = say("report", node.report(&size_report(datagram, size), time)).unwrap();
    println!("  {:08x} has {size}", u32::from(neighbour));
}

/// The path sizes of both services toward the station.
fn sizes(node: &Node) {
    let [first, second] = [First, Second].map(|service| node.path_size(service, STATION).unwrap());
    println!("path sizes {first} and {second}");
}

/// A logger with two services, each on a link of its own: what the second is told of a path counts for the first too, as far as that is
/// below the size of its link.
fn two_services(packet: &[u8]) {
    let weather = Settings::new(&[Locator::new(WEATHER, 0)]);
    let seismic = Settings::new(&[Locator::new(SEISMIC, 1)]).link_size(9000);
    let mut logger = say("new_pair", Node::new_pair(&weather, &seismic)).unwrap();
    sizes(&logger);
    let datagram = send(&mut logger, Second, packet, 1000);
    report(&mut logger, &datagram, 5000, 1001);
    sizes(&logger);
    report(&mut logger, &datagram, 1400, 1002);
    sizes(&logger);
    send(&mut logger, First, packet, 1003);
    send(&mut logger, Second, packet, 1003);
    let [first, second] = [First, Second].map(|service| logger.identification(service).unwrap());
    println!("next identifications {first} and {second}, latest time {}", logger.latest());
}

fn main() {
    let mut centre = say("new", Node::new(&Settings::new(&[Locator::new(CENTRE, 0)]).routers(&[STATION]))).unwrap();
    let mut station = say("new", Node::new(&Settings::new(&[Locator::new(STATION, 0)]))).unwrap();
    let packet = packet_from_centre();
    let datagram = send(&mut centre, First, &packet, 1000);

    // What comes in pieces is joined here. Every call of receiving by one service is lent the same memory.
    let mut memory = [0; bogtrumpet::MEMORY];
    receive(&mut station, &datagram, 1000, &mut memory, &packet);
    say("receive on another interface", station.receive(First, &datagram, 1, 1000, &mut memory));

    // The same datagram in two pieces, the last one first.
    receive(&mut station, &cut(&datagram, 1472), 1000, &mut memory, &packet);
    receive(&mut station, &cut(&datagram, 0), 1001, &mut memory, &packet);

    report(&mut centre, &datagram, 1400, 1001);
    send(&mut centre, First, &packet, 1002);

    let mut out = [0; 48];
    let Asked { router, .. } = say("ask", centre.ask(First, 0, 1003, &mut out)).unwrap();
    println!("  {:08x} is asked", u32::from(router));
    say("ask", centre.ask(First, 0, 1004, &mut out));
    let (size, identification) = (centre.path_size(First, STATION).unwrap(), centre.identification(First).unwrap());
    println!("path size {size}, next identification {identification}, latest time {}", centre.latest());
    say("path size of a second service", centre.path_size(Second, STATION));
    two_services(&packet);
}
