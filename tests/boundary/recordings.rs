//! Two recordings compared, by the library and by plain Rust: edges and random ones.

use crate::check::{hex, same, same_input, Check};
use crate::nodes::number;
use crate::plain::recordings::{self, More};
use crate::totals::Call;
use bogtrumpet::raw;

/// Lengths around those at which what is masked ends, and a block of bytes may.
const LENGTHS: [usize; 22] = [0, 1, 4, 5, 6, 8, 9, 10, 11, 12, 13, 15, 16, 17, 20, 31, 32, 33, 40, 64, 65, 100];

pub fn compare(check: &mut Check, masked: bool, first: &[u8], second: &[u8], room: usize) {
    let (loan, other) = check.lend_two(first, second, room);
    let library = raw::compare(masked, loan.input, other, loan.library);
    let plain = recordings::compare(masked, first, second, loan.plain);
    let (length, more) = plain.unwrap_or((0, More::Neither));
    let expected = raw::Compared { number: number(&plain), more: more as u8, length };
    let call = || format!("compare {masked} {} {} room {room}", hex(first), hex(second));
    same("answer", &expected, &library, &call);
    loan.same_output(first, &call);
    same_input(second, other, &call);
    check.totals.count(Call::Compare, library.number.into());
    if library.number == 0 {
        check.totals.met(Call::More, library.more.into());
    }
}

/// A recording of these datagrams, which arrive on any interfaces.
fn recording(check: &mut Check, parts: &[&[u8]]) -> Vec<u8> {
    let mut bytes = (parts.len() as u16).to_be_bytes().to_vec();
    for part in parts {
        bytes.push(check.random.next() as u8);
        bytes.extend((part.len() as u16).to_be_bytes());
        bytes.extend(*part);
    }
    bytes
}

/// Both orders, masked and not.
fn each_way(check: &mut Check, first: &[u8], second: &[u8], room: usize) {
    for masked in [false, true] {
        compare(check, masked, first, second, room);
        compare(check, masked, second, first, room);
    }
}

/// A pair of datagrams by themselves, behind a pair that differs, and with a datagram more on one side; rooms around the report's length.
fn pair(check: &mut Check, one: &[u8], other: &[u8]) {
    let (first, second) = (recording(check, &[one]), recording(check, &[other]));
    let mut out = [0; 6 * 200];
    let (length, _) = recordings::compare(false, &first, &second, &mut out).expect("200 runs at most");
    for room in [0, 6, length.saturating_sub(6), length.saturating_sub(1), length, length + 1, length + 20] {
        each_way(check, &first, &second, room);
    }
    let (first, second) = (recording(check, &[one, &[1, 2], one]), recording(check, &[other, &[1]]));
    each_way(check, &first, &second, length + 6);
}

pub fn edges(check: &mut Check) {
    each_byte(check);
    masks(check);
    for length in LENGTHS {
        for longer in LENGTHS.into_iter().filter(|&longer| longer >= length) {
            let mut one = check.pattern(longer);
            let other = one[..length].to_vec();
            pair(check, &one, &other);
            if let Some(last) = length.checked_sub(1) {
                one[last] ^= 1;
                pair(check, &one, &other);
            }
            one.iter_mut().for_each(|byte| *byte ^= 0x80);
            pair(check, &one, &other);
        }
    }
    malformed(check);
    large(check);
}

/// Each stretch of 70 bytes that differs alone, and each that is equal alone.
fn each_byte(check: &mut Check) {
    let one = check.pattern(70);
    let first = recording(check, &[&one]);
    for start in 0..one.len() {
        for end in start + 1..=one.len() {
            let mut other = one.clone();
            other[start..end].iter_mut().for_each(|byte| *byte ^= 1);
            let rest: Vec<u8> = other.iter().map(|byte| byte ^ 1).collect();
            let second = recording(check, &[&other]);
            each_way(check, &first, &second, 30);
            let second = recording(check, &[&rest]);
            each_way(check, &first, &second, 30);
        }
    }
}

/// Every choice of differing bytes among the first twelve, in a datagram of each length that ends in them or behind.
fn masks(check: &mut Check) {
    let one = check.pattern(14);
    for choice in 0..1 << 12 {
        let mut other = one.clone();
        for (place, byte) in other.iter_mut().enumerate() {
            *byte ^= (choice >> place & 1) as u8;
        }
        let length = check.random.between(1, 14);
        let (first, second) = (recording(check, &[&one]), recording(check, &[&other]));
        each_way(check, &first, &second, 60);
        let cut = recording(check, &[&other[..length]]);
        each_way(check, &first, &cut, 60);
    }
}

/// Each recording that is cut off, with bytes behind it, or with another count or length, beside one that is right.
fn malformed(check: &mut Check) {
    let right = recording(check, &[&[1, 2, 3], &[], &[4, 5]]);
    let one = recording(check, &[&[1, 2], &[7; 300]]);
    for room in [0, 6, 100] {
        for length in 0..=one.len() + 4 {
            let mut wrong = one.clone();
            wrong.resize(length, 0);
            each_way(check, &right, &wrong, room);
            each_way(check, &wrong, &wrong, room);
        }
        for place in 0..12 {
            for value in 0..=255 {
                let mut wrong = one.clone();
                wrong[place] = value;
                each_way(check, &right, &wrong, room);
            }
        }
    }
}

/// The longest datagrams, and as many as there can be.
fn large(check: &mut Check) {
    let mut long = check.pattern(65_535);
    let first = recording(check, &[&long, &long]);
    let empty = recording(check, &[&[], &[9]]);
    each_way(check, &first, &empty, 12);
    for places in [
        vec![],
        vec![0],
        vec![65_534],
        vec![4, 8, 11, 12, 31_000],
        (0..65_535).collect(),
        (0..65_535).step_by(7).collect(),
    ] {
        places.iter().for_each(|&place: &usize| long[place] ^= 0x10);
        let second = recording(check, &[&long, &long[..65_000]]);
        for room in [0, 12, 6 * 9363, 120_000] {
            each_way(check, &first, &second, room);
        }
    }
    let many = recording(check, &vec![&[][..]; 65_535]);
    let mut last = many[..many.len() - 3].to_vec();
    last.extend([0, 0, 1, 0]);
    each_way(check, &many, &last, 6);
    last.truncate(last.len() - 4);
    each_way(check, &many, &last, 6);
    last[1] -= 1;
    each_way(check, &many, &last, 0);
}

/// Two recordings that are mostly alike.
pub fn random(check: &mut Check) {
    let (mut first, mut second) = (Vec::new(), Vec::new());
    let rate = check.random.one_of(&[1, 2, 10, 100, 1000]);
    for _ in 0..check.random.one_of(&[0, 1, 1, 2, 3, 8]) {
        let length = check.random.one_of(&LENGTHS) + check.random.below(4);
        let one = check.pattern(length);
        let mut other = one.clone();
        other.iter_mut().for_each(|byte| *byte ^= u8::from(check.random.once_in(rate)) << check.random.below(8));
        match check.random.below(6) {
            0 => other.truncate(check.random.below(length + 1)),
            1 => other.resize(length + check.random.below(20), 7),
            _ => {}
        }
        first.push(one);
        second.push(other);
    }
    match check.random.below(6) {
        0 => first.push(vec![1; 5]),
        1 => _ = first.pop(),
        _ => {}
    }
    let [mut first, mut second] = [first, second].map(|parts: Vec<Vec<u8>>| {
        let parts: Vec<&[u8]> = parts.iter().map(Vec::as_slice).collect();
        recording(check, &parts)
    });
    for one in [&mut first, &mut second] {
        match check.random.below(12) {
            0 => one.truncate(check.random.below(one.len())),
            1 => one.push(0),
            2 => {
                let place = check.random.below(one.len());
                one[place] ^= 1 << check.random.below(8);
            }
            _ => {}
        }
    }
    let masked = check.random.once_in(2);
    let room = check.random.one_of(&[0, 6, 11, 12, 60, 600, 6000]);
    compare(check, masked, &first, &second, room);
}
