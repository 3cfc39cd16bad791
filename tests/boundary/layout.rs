//! The structs of the Rust package have their fields where the C header has them, and texts and constants are the same.

use crate::advertised;
use crate::check::same;
use crate::nodes::{HIGH, LOW};
use crate::plain::recordings::More;
use crate::plain::rules::ENTRIES;
use bogtrumpet::raw::*;
use bogtrumpet::{Refusal, ServiceName};
use std::ffi::{c_char, CStr};
use std::mem::offset_of;

extern "C" {
    static bogtrumpet_layout: [usize; 0];
    static bogtrumpet_layout_length: usize;
    static bogtrumpet_constants: [usize; 19];
    fn bogtrumpet_text(number: u8) -> *const c_char;
}

macro_rules! places {
    ($($name:ident: $($field:ident)*;)*) => {
        vec![$(
            $((concat!(stringify!($name), ".", stringify!($field)), offset_of!($name, $field)),)*
            (concat!("size of ", stringify!($name)), size_of::<$name>()),
        )*]
    };
}

pub fn compare() {
    places();
    texts();
    let constants = [
        bogtrumpet::MAX_LOCATORS,
        bogtrumpet::MAX_PREFIXES,
        bogtrumpet::MAX_ROUTERS,
        bogtrumpet::MAX_NEIGHBOURS,
        bogtrumpet::OUTER_HEADER_LENGTH,
        bogtrumpet::SOLICITATION_LENGTH,
        bogtrumpet::MAX_TOO_BIG_LENGTH,
        bogtrumpet::MAX_SENT_LENGTH,
        bogtrumpet::MEMORY,
        ENTRIES,
        advertised::LONGEST,
        HIGH.into(),
        LOW.into(),
        ServiceName::First.number().into(),
        ServiceName::Second.number().into(),
        bogtrumpet::RUN_LENGTH,
        More::Neither as usize,
        More::First as usize,
        More::Second as usize,
    ];
    // SAFETY: through.c's table has that length.
    same("constants", unsafe { &bogtrumpet_constants }, &constants, &|| "the header, the package and the rules".into());
}

fn texts() {
    for number in 0..=255 {
        // SAFETY: the header's texts are C strings.
        let header = unsafe { CStr::from_ptr(bogtrumpet_text(number)) }.to_str().expect("a text");
        let package = match (number, Refusal::from_number(number)) {
            (_, Some(refusal)) => refusal.to_string(),
            (0, None) => "not refused".into(),
            (14, None) => "packet too big".into(),
            _ => "no number of bogtrumpet".into(),
        };
        same("text", header, &*package, &|| format!("number {number}"));
    }
}

fn places() {
    // SAFETY: through.c's table has that length.
    let header = unsafe { std::slice::from_raw_parts((&raw const bogtrumpet_layout).cast(), bogtrumpet_layout_length) };
    let module: Vec<(&str, usize)> = places! {
        Address: bytes;
        Locator: address interface;
        Settings: locators locator_count prefixes prefix_count routers router_count link_size ttl interval identification reporting;
        RouterList: addresses dues count;
        Key: source destination identification protocol;
        Place: held key first end reach used;
        Collection: places;
        Service: settings routers pieces identification;
        Paths: neighbours sizes times count;
        Node: first second paths latest both;
        Addresses: routers count;
        AdvertisedPrefix: bytes valid preferred length on_link autonomous;
        AdvertisedRoute: bytes lifetime length preference;
        Advertisement: prefixes prefix_count routes route_count lifetime managed other;
        Received: number joined offset length;
        Sent: number size length message_length;
        Reported: number neighbour size;
        PathSize: number size;
        Asked: number router;
        Heard: number router;
        Advertised: number length;
        Prefixes: bytes count;
        Embedded: found address;
        OuterRead: number protocol header total source destination;
        Outer: identification dont_fragment ttl protocol source destination;
        Written: number length;
        Compared: number more length;
    };
    let call = || "the places of fields in the module and in the header".into();
    same("count of places", &module.len(), &header.len(), &call);
    for ((name, place), in_header) in module.iter().zip(header) {
        same(name, place, in_header, &call);
    }
}
