//! Two recordings compared (R27): the runs are counted, and then written. Eight bytes at a time, of which each that differs leaves its highest bit;
//! 64 that are all equal, or all differ, are passed over at once, and so are two datagrams that are the same.

use crate::plain::recordings::More;
use crate::plain::Refusal;
use std::cmp::Ordering;

const WORD: usize = 8;
const BLOCK: usize = 64;
/// The bytes of a run in the report.
const RUN: usize = 6;
/// All bits but the highest of each byte.
const LOW: u64 = 0x7f7f_7f7f_7f7f_7f7f;
/// What is left of the first two words where identification, TTL and checksum are masked.
const UNMASKED: [u64; 2] = [!0x0000_8080_0000_0000, !0x0000_0000_8080_0080];

/// The report's length, and which recording has more datagrams; 31, 15.
#[inline(never)]
pub fn compare(masked: bool, first: &[u8], second: &[u8], out: &mut [u8]) -> Result<(usize, More), Refusal> {
    if !(is_recording(first) && is_recording(second)) {
        return Err(Refusal::Recording);
    }
    let most = out.len() / RUN;
    let mut runs = 0;
    for (one, other) in pairs(first, second).filter(|(one, other)| one != other) {
        runs += count(masked, one, other);
        if runs > most {
            return Err(Refusal::Room);
        }
    }
    let (report, _) = out.split_at_mut(runs * RUN);
    if runs > 0 {
        write(masked, first, second, report);
    }
    let more = match number_of(first).cmp(&number_of(second)) {
        Ordering::Less => More::Second,
        Ordering::Equal => More::Neither,
        Ordering::Greater => More::First,
    };
    Ok((runs * RUN, more))
}

fn number_of(recording: &[u8]) -> u16 {
    u16::from_be_bytes([recording[0], recording[1]])
}

/// The first datagram, and what stands behind it.
fn taken(rest: &[u8]) -> Option<(&[u8], &[u8])> {
    let ([_, high, low], behind) = rest.split_first_chunk()?;
    let length = usize::from(u16::from_be_bytes([*high, *low]));
    (length <= behind.len()).then(|| behind.split_at(length))
}

fn is_recording(bytes: &[u8]) -> bool {
    let Some((count, mut rest)) = bytes.split_first_chunk() else {
        return false;
    };
    for _ in 0..u16::from_be_bytes(*count) {
        let Some((_, behind)) = taken(rest) else {
            return false;
        };
        rest = behind;
    }
    rest.is_empty()
}

fn datagrams(recording: &[u8]) -> impl Iterator<Item = &[u8]> {
    let mut rest = &recording[2..];
    std::iter::from_fn(move || {
        let (datagram, behind) = taken(rest)?;
        rest = behind;
        Some(datagram)
    })
}

fn pairs<'a>(first: &'a [u8], second: &'a [u8]) -> impl Iterator<Item = (&'a [u8], &'a [u8])> {
    datagrams(first).zip(datagrams(second))
}

/// The highest bit of each byte that differs, the first byte lowest.
fn differing(one: &[u8; WORD], other: &[u8; WORD]) -> u64 {
    let bits = u64::from_le_bytes(*one) ^ u64::from_le_bytes(*other);
    ((bits & LOW) + LOW | bits) & !LOW
}

/// Hands over the marks of what both have, word by word, with their place; of a block that is equal the place alone, and of one that differs
/// in each byte those of one word. A last word that is not full goes on as it ends.
#[inline(always)]
fn each_word(masked: bool, one: &[u8], other: &[u8], mut mark: impl FnMut(usize, Option<u64>)) {
    let shorter = one.len().min(other.len());
    let (blocks, others) = (one[..shorter].chunks_exact(BLOCK), other[..shorter].chunks_exact(BLOCK));
    let (last, last_other) = (blocks.remainder(), others.remainder());
    for (place, (block, partner)) in blocks.zip(others).enumerate() {
        let [block, partner]: [&[u8; BLOCK]; 2] = [block, partner].map(|block| block.try_into().expect("a block"));
        let at = place * BLOCK;
        if block.iter().zip(partner).fold(0, |bits, (byte, other)| bits | (byte ^ other)) == 0 {
            mark(at, None);
        } else if !(masked && at == 0)
            && !block.iter().zip(partner).fold(false, |equal, (byte, other)| equal | (byte == other))
        {
            mark(at, Some(!LOW));
        } else {
            words(masked, at, block, partner, &mut mark);
        }
    }
    words(masked, shorter - last.len(), last, last_other, &mut mark);
}

#[inline(always)]
fn words(masked: bool, start: usize, one: &[u8], other: &[u8], mark: &mut impl FnMut(usize, Option<u64>)) {
    let (words, others) = (one.chunks_exact(WORD), other.chunks_exact(WORD));
    let (last, last_other) = (words.remainder(), others.remainder());
    let masks = |at: usize| if masked && at < 2 * WORD { UNMASKED[at / WORD] } else { !0 };
    for (place, (bytes, partner)) in words.zip(others).enumerate() {
        let at = start + place * WORD;
        let [bytes, partner]: [&[u8; WORD]; 2] = [bytes, partner].map(|bytes| bytes.try_into().expect("a word"));
        mark(at, Some(differing(bytes, partner) & masks(at)));
    }
    if !last.is_empty() {
        let (at, mut both) = (start + one.len() - last.len(), [[0; WORD]; 2]);
        both[0][..last.len()].copy_from_slice(last);
        both[1][..last.len()].copy_from_slice(last_other);
        let bits = differing(&both[0], &both[1]) & masks(at);
        let goes_on = bits >> (8 * last.len() - 1) != 0;
        mark(at, Some(if goes_on { bits | !LOW << (8 * last.len()) } else { bits }));
    }
}

/// How many bytes are marked.
fn marked(bits: u64) -> usize {
    ((bits >> 7).wrapping_mul(0x0101_0101_0101_0101) >> 56) as usize
}

/// The runs of a pair: the bytes that differ behind one that does not.
fn count(masked: bool, one: &[u8], other: &[u8]) -> usize {
    let (mut open, mut runs) = (0, 0); // open: a mark at the lowest byte, where the byte before differs
    each_word(masked, one, other, |_, bits| {
        let bits = bits.unwrap_or(0);
        runs += marked(bits & !(bits << 8 | open));
        open = bits >> 56;
    });
    runs + usize::from(one.len() != other.len() && open == 0)
}

/// Writes the runs of all pairs, whose count fills the report.
fn write(masked: bool, first: &[u8], second: &[u8], report: &mut [u8]) {
    let mut rows = report.chunks_exact_mut(RUN);
    let mut number: u16 = 0;
    for (one, other) in pairs(first, second) {
        number += 1;
        if one == other {
            continue;
        }
        write_pair(masked, one, other, &mut |start, end| {
            if let Some(row) = rows.next() {
                row[..2].copy_from_slice(&number.to_be_bytes());
                row[2..4].copy_from_slice(&(start as u16).to_be_bytes());
                row[4..].copy_from_slice(&((end - start) as u16).to_be_bytes());
            }
        });
    }
}

#[inline(always)]
fn write_pair(masked: bool, one: &[u8], other: &[u8], put: &mut impl FnMut(usize, usize)) {
    let (mut open, mut start) = (0, 0); // start: where the run that is open begins
    each_word(masked, one, other, |at, bits| {
        let bits = bits.unwrap_or(0);
        let mut changes = bits ^ (bits << 8 | open);
        while changes != 0 {
            let place = at + changes.trailing_zeros() as usize / 8;
            if open != 0 {
                put(start, place);
            }
            (start, open) = (place, u64::from(open == 0));
            changes &= changes - 1;
        }
        open = bits >> 56;
    });
    let (shorter, longer) = (one.len().min(other.len()), one.len().max(other.len()));
    if open != 0 {
        put(start, longer);
    } else if shorter < longer {
        put(shorter, longer);
    }
}
