//! (NULL, 0) for each lent slice: the same answers as for an empty one.

use crate::check::{same, Check};
use crate::packets;
use crate::plain::pieces::MEMORY;
use crate::plain::rules;
use crate::totals::Call;
use bogtrumpet::raw::{self, *};
use std::ptr::{null, null_mut};

/// Each call on a node of these settings; what is not null stands against pages that may not be touched.
pub fn null_slices(check: &mut Check, settings: Settings) {
    let mut node = Node::EMPTY;
    same("number", &0, &node.set_up(settings), &|| format!("new {settings:?}"));
    let start = node;
    let hop = raw::link_local(0x0a01_0001);
    let mut packet = [0; 40];
    (packet[0], packet[8]) = (0x60, 1);
    let mut numbers = [0; 12];
    let mut memory = vec![0x55; MEMORY];
    // SAFETY: null with a length of 0, or a slice's own pointer and length.
    unsafe {
        let (loan, _) = check.lend_node(&start, &packet, 100);
        let (bytes, length) = (loan.input.as_ptr(), loan.input.len());
        let (out, room) = (loan.library.as_mut_ptr(), loan.library.len());
        numbers[0] = bogtrumpet_receive(&mut node, 0, null(), 0, 0, 0, memory.as_mut_ptr(), MEMORY).number;
        numbers[1] = bogtrumpet_send(&mut node, 0, null(), 0, hop, 0, 0, out, room).number;
        numbers[2] = bogtrumpet_send(&mut node, 0, bytes, length, hop, 0, 0, null_mut(), 0).number;
        numbers[3] = bogtrumpet_report(&mut node, null(), 0, 0).number;
        numbers[4] = bogtrumpet_ask(&mut node, 0, 0, 0, null_mut(), 0).number;
        numbers[5] = bogtrumpet_hear(&mut node, 0, null(), 0, 0).number;
        numbers[6] = bogtrumpet_read_outer(null(), 0).number;
        numbers[7] = bogtrumpet_unwrap(null(), 0).number;
        numbers[8] = bogtrumpet_too_big(hop, 1280, null(), 0, out, room).number;
        numbers[9] = bogtrumpet_too_big(hop, 1280, bytes, length, null_mut(), 0).number;
        numbers[10] = bogtrumpet_solicitation(1, 2, null_mut(), 0).number;
        numbers[11] = bogtrumpet_receive(&mut node, 0, bytes, length, 0, 0, null_mut(), 0).number;
        let call = || "an output beside a null input".into();
        loan.same_output(&packet, &call);
    }
    let call = || "each call with (NULL, 0) in turn".into();
    same("numbers", &[2, 8, 15, 16, 15, 8, 2, 2, 8, 15, 15, 15], &numbers, &call);
    same("node", &start, &node, &call);
    same("memory", &vec![0x55; MEMORY], &memory, &call);
    absent(&mut node, hop);
    large_and_silent(&mut node, hop);
    advertises(check, &node, hop);
    sums(check);
    wraps(check);
    compares(check);
    check.totals.count(Call::Null, 0);
}

/// A service that the node has not needs no bytes at all.
fn absent(node: &mut Node, hop: Address) {
    let (start, none) = (*node, Advertisement::default());
    for service in [1, 2, 255] {
        let numbers = unsafe {
            [
                bogtrumpet_receive(node, service, null(), 0, 0, 0, null_mut(), 0).number,
                bogtrumpet_send(node, service, null(), 0, hop, 0, 0, null_mut(), 0).number,
                bogtrumpet_ask(node, service, 0, 0, null_mut(), 0).number,
                bogtrumpet_hear(node, service, null(), 0, 0).number,
                bogtrumpet_advertise(node, service, null(), 0, 0, none, null_mut(), 0).number,
            ]
        };
        let call = || format!("each call of service {service} with (NULL, 0)");
        same("numbers", &[11; 5], &numbers, &call);
        same("node", &start, node, &call);
    }
}

/// Too Big without a message, for the packet's source or for its extension headers, needs no output.
fn large_and_silent(node: &mut Node, hop: Address) {
    for (at, value, why) in [(6, 59, "from ::"), (8, 0x20, "with headers that run past it")] {
        let mut packet = vec![0; 9300];
        (packet[0], packet[4], packet[5]) = (0x60, 0x24, 0x2c);
        packet[at] = value;
        let answer = unsafe { bogtrumpet_send(node, 0, packet.as_ptr(), packet.len(), hop, 0, 0, null_mut(), 0) };
        let call = || format!("send 9300 {why} to (NULL, 0)");
        same("no message", &(14, 0), &(answer.number, answer.message_length), &call);
    }
}

/// No packet that asks, then no output.
fn advertises(check: &mut Check, node: &Node, asker: Address) {
    let packet = packets::solicitation(&mut check.random, &asker.bytes, &[]);
    let (loan, node) = check.lend_node(node, &packet, 56);
    let (none, all) = (Advertisement::default(), (loan.input.as_ptr(), loan.input.len()));
    let (out, room) = (loan.library.as_mut_ptr(), loan.library.len());
    let (unasked, unlent) = unsafe {
        let unasked = bogtrumpet_advertise(node, 0, null(), 0, 0, none, out, room);
        (unasked, bogtrumpet_advertise(node, 0, all.0, all.1, 0, none, null_mut(), 0))
    };
    let call = || "advertise (NULL, 0), and to (NULL, 0)".into();
    same("numbers", &(8, 15), &(unasked.number, unlent.number), &call);
    same("lengths", &(0, 0), &(unasked.length, unlent.length), &call);
    loan.same_output(&packet, &call);
}

/// No recording, on either side; then two without a datagram, whose report needs no output, and two that differ.
fn compares(check: &mut Check) {
    let (none, one, other) = ([0, 0], [0, 1, 0, 0, 1, 0], [0, 1, 0, 0, 1, 1]);
    let loan = check.lend(&none, 6);
    let (bytes, length, out) = (loan.input.as_ptr(), loan.input.len(), loan.library.as_mut_ptr());
    let numbers = unsafe {
        [
            bogtrumpet_compare(false, null(), 0, null(), 0, null_mut(), 0).number,
            bogtrumpet_compare(true, null(), 0, bytes, length, out, 6).number,
            bogtrumpet_compare(true, bytes, length, null(), 0, out, 6).number,
            bogtrumpet_compare(false, bytes, length, bytes, length, null_mut(), 0).number,
            bogtrumpet_compare(true, one.as_ptr(), 6, other.as_ptr(), 6, null_mut(), 0).number,
        ]
    };
    let call = || "compare (NULL, 0)".into();
    same("numbers", &[31, 31, 31, 0, 15], &numbers, &call);
    loan.same_output(&none, &call);
}

fn sums(check: &mut Check) {
    let start = check.random.next() as u32;
    let (sum, right) = unsafe { (bogtrumpet_checksum(start, null(), 0), bogtrumpet_checksum_right(null(), 0)) };
    let expected = (rules::checksum(start, &[]), rules::checksum_right(&[]));
    same("sums", &expected, &(sum, right), &|| format!("checksum {start:#x} of (NULL, 0)"));
}

/// An empty packet is written: the header alone.
fn wraps(check: &mut Check) {
    let plain =
        rules::Outer { identification: 3, dont_fragment: true, ttl: 64, protocol: 41, source: 1, destination: 2 };
    let outer = Outer { identification: 3, dont_fragment: 1, ttl: 64, protocol: 41, source: 1, destination: 2 };
    let loan = check.lend(&[], 20);
    let call = || "wrap (NULL, 0)".into();
    let written = unsafe { bogtrumpet_wrap(outer, null(), 0, loan.library.as_mut_ptr(), loan.library.len()) };
    same("length", &rules::wrap(&plain, &[], loan.plain), &Ok(written.length), &call);
    loan.same_output(&[], &call);
    let refused = unsafe { bogtrumpet_wrap(outer, null(), 0, null_mut(), 0) };
    same("answer", &Written { number: 15, length: 0 }, &refused, &call);
}
