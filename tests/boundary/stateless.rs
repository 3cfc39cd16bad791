//! The rules without state, of the library and of plain Rust: each call is made on both.

use crate::check::{hex, same, Check};
use crate::nodes::number;
use crate::plain::rules;
use crate::plain::Address;
use crate::totals::Call;
use bogtrumpet::raw;

pub fn checksum(check: &mut Check, start: u32, bytes: &[u8]) {
    let library = raw::checksum(start, check.lend_input(bytes));
    let call = || format!("checksum {start:#x} {}", hex(bytes));
    same("sum", &rules::checksum(start, bytes), &library, &call);
    check.totals.count(Call::Checksum, 0);
}

pub fn checksum_right(check: &mut Check, bytes: &[u8]) {
    let library = raw::checksum_right(check.lend_input(bytes));
    let call = || format!("checksum_right {}", hex(bytes));
    same("right", &rules::checksum_right(bytes), &library, &call);
    check.totals.count(Call::ChecksumRight, library.into());
}

pub fn forbidden(check: &mut Check, address: u32) {
    let library = raw::forbidden(address);
    same("forbidden", &rules::forbidden(address), &library, &|| format!("forbidden {address:#x}"));
    check.totals.count(Call::Forbidden, library.into());
}

/// The prefixes past `count` are there but not in use.
pub fn isatap(check: &mut Check, prefixes: &[[u8; 8]; 8], count: usize, address: Address) {
    let mut given = raw::Prefixes { bytes: [0; 64], count };
    given.bytes.copy_from_slice(prefixes.as_flattened());
    let library = raw::isatap(given, raw::Address { bytes: address });
    let plain = rules::isatap(&prefixes[..count.min(8)], &address);
    let call = || format!("isatap {prefixes:?} {count} {}", hex(&address));
    let expected = raw::Embedded { found: plain.is_some(), address: plain.unwrap_or(0) };
    same("answer", &expected, &library, &call);
    check.totals.count(Call::Isatap, library.found.into());
}

pub fn link_local(check: &mut Check, address: u32) {
    let library = raw::link_local(address).bytes;
    same("address", &rules::link_local(address), &library, &|| format!("link_local {address:#x}"));
    check.totals.count(Call::LinkLocal, 0);
}

pub fn bad_source(check: &mut Check, address: Address) {
    let library = raw::bad_source(raw::Address { bytes: address });
    same("bad", &rules::bad_source(&address), &library, &|| format!("bad_source {}", hex(&address)));
    check.totals.count(Call::BadSource, library.into());
}

pub fn read_outer(check: &mut Check, datagram: &[u8]) {
    let library = raw::read_outer(check.lend_input(datagram));
    let plain = rules::read_outer(datagram);
    let read = plain.unwrap_or_default();
    let expected = raw::OuterRead {
        number: number(&plain),
        protocol: read.protocol,
        header: read.header,
        total: read.total,
        source: read.source,
        destination: read.destination,
    };
    same("answer", &expected, &library, &|| format!("read_outer {}", hex(datagram)));
    check.totals.count(Call::ReadOuter, library.number.into());
}

pub fn unwrap(check: &mut Check, datagram: &[u8]) {
    let library = raw::unwrap(check.lend_input(datagram));
    let plain = rules::unwrap(datagram);
    let part = plain.clone().unwrap_or(0..0);
    let (offset, length) = (part.start, part.len());
    let expected = raw::Received { number: number(&plain), joined: false, offset, length };
    same("answer", &expected, &library, &|| format!("unwrap {}", hex(datagram)));
    check.totals.count(Call::Unwrap, library.number.into());
}

/// The outer header's fields with this byte for don't-fragment, in the place of the one that plain Rust is given.
pub fn wrap(check: &mut Check, outer: &rules::Outer, dont_fragment: u8, packet: &[u8], room: usize) {
    let loan = check.lend(packet, room);
    let fields = raw::Outer {
        identification: outer.identification,
        dont_fragment,
        ttl: outer.ttl,
        protocol: outer.protocol,
        source: outer.source,
        destination: outer.destination,
    };
    let library = raw::wrap(fields, loan.input, loan.library);
    let plain = rules::wrap(&rules::Outer { dont_fragment: dont_fragment != 0, ..*outer }, packet, loan.plain);
    let call = || format!("wrap {fields:?} {} room {room}", hex(packet));
    same("answer", &written(&plain), &library, &call);
    loan.same_output(packet, &call);
    check.totals.count(Call::Wrap, library.number.into());
}

pub fn too_big(check: &mut Check, reporting: Address, size: u16, packet: &[u8], room: usize) {
    let loan = check.lend(packet, room);
    let library = raw::too_big(raw::Address { bytes: reporting }, size, loan.input, loan.library);
    let plain = rules::too_big(&reporting, size, packet, loan.plain);
    let call = || format!("too_big {} {size} {} room {room}", hex(&reporting), hex(packet));
    same("answer", &written(&plain), &library, &call);
    loan.same_output(packet, &call);
    check.totals.count(Call::TooBig, library.number.into());
}

pub fn solicitation(check: &mut Check, locator: u32, router: u32, room: usize) {
    let loan = check.lend(&[], room);
    let library = raw::solicitation(locator, router, loan.library);
    let plain = rules::solicitation(locator, router, loan.plain);
    let call = || format!("solicitation {locator:#x} {router:#x} room {room}");
    same("answer", &written(&plain), &library, &call);
    loan.same_output(&[], &call);
    check.totals.count(Call::Solicitation, library.number.into());
}

fn written(plain: &Result<usize, rules::Refusal>) -> raw::Written {
    raw::Written { number: number(plain), length: plain.unwrap_or(0) }
}
