//! The RFC 1071 sum.
//!
//! Three facts carry it. 2^64 - 1 and 2^32 - 1 are multiples of 2^16 - 1, so words of 64 and of 32 bits may be added up and folded at the end.
//! The sum of words with their bytes exchanged is the sum with its bytes exchanged (RFC 1071, 2 (B)), so words are read in the machine's
//! order. And a sum folds to FFFF exactly where it is a multiple of that, and not 0.

/// From so many bytes on, lanes take less time than a chain of carries.
const LONG: usize = 256;
/// So few blocks of 64 bytes that 32 bits hold the sum of their words.
const BLOCKS: usize = 2048;

/// The sum of `bytes`, continued from the two words of `start`; a last odd byte is the high half of a word.
#[inline(never)]
pub fn checksum(start: u32, bytes: &[u8]) -> u16 {
    folded(added(u64::from(start.swap_bytes()), bytes)).swap_bytes()
}

/// What is to be written for words of that sum, in the machine's order.
#[inline(always)]
pub fn complement(sum: u64) -> u16 {
    !folded(sum)
}

/// Whether words of that sum, which are not all 0, have a right checksum among them.
#[inline(always)]
pub fn is_right(sum: u64) -> bool {
    sum % 0xffff == 0
}

/// Each carry brought back: the halves added with their carry are the upper half, twice.
#[inline(always)]
fn folded(sum: u64) -> u16 {
    let sum = (sum.wrapping_add(sum.rotate_left(32)) >> 32) as u32;
    (sum.wrapping_add(sum.rotate_left(16)) >> 16) as u16
}

/// The sum of a few words of 64 bits.
#[inline(always)]
pub fn of_words<const N: usize>(words: [u64; N]) -> u64 {
    let (mut sum, mut carry) = (0u64, false);
    for word in words {
        (sum, carry) = sum.carrying_add(word, carry);
    }
    sum + u64::from(carry)
}

/// The sum of the bytes and of `sum`, which is below 2^63.
#[inline(never)]
pub fn added(sum: u64, bytes: &[u8]) -> u64 {
    added_here(sum, bytes)
}

/// The same in the caller, who need save nothing for a call.
#[inline(always)]
pub fn added_here(sum: u64, bytes: &[u8]) -> u64 {
    let Some(last) = bytes.last_chunk() else {
        return sum + bytes.iter().rev().fold(0, |word, &byte| word << 8 | u64::from(byte));
    };
    if bytes.len() >= LONG {
        return long(sum, bytes);
    }
    // The bytes behind the last whole word: the last eight, less those of them that it has. Below 2^56, so without a carry.
    let sum = sum + (u64::from_le_bytes(*last) >> 8 >> (56 - 8 * (bytes.len() % 8)));
    few(sum, bytes.as_chunks().0)
}

/// The words of fewer than `LONG` bytes: a jump to straight code for just so many.
#[inline(always)]
fn few(sum: u64, words: &[[u8; 8]]) -> u64 {
    macro_rules! unrolled { ($($count:literal)*) => {
        match words.len() { $($count => carried(sum, &words[..$count]),)* _ => unreachable!() }
    } }
    unrolled!(0 1 2 3 4 5 6 7 8 9 10 11 12 13 14 15 16 17 18 19 20 21 22 23 24 25 26 27 28 29 30 31)
}

/// Words of 64 bits, each carry into the next addition and the last one in at the low end. There is room for it: from a sum below 2^64 - 1 on,
/// one that was carried out of is never all ones.
#[inline(always)]
fn carried(mut sum: u64, words: &[[u8; 8]]) -> u64 {
    let mut carry = false;
    for word in words {
        (sum, carry) = sum.carrying_add(u64::from_le_bytes(*word), carry);
    }
    sum + u64::from(carry)
}

/// Long input: the lanes first, folded to 32 bits, from which the rest is continued.
#[inline(never)]
fn long(start: u64, bytes: &[u8]) -> u64 {
    let (blocks, rest) = bytes.as_chunks();
    // Half of the bits are free for the carries.
    let start = (start >> 32) + (start & 0xffff_ffff);
    let sum = blocks.chunks(BLOCKS).fold(start, |sum, part| sum + u64::from(lanes(part)));
    added((sum >> 32) + (sum & 0xffff_ffff), rest)
}

/// Sixteen lanes of 32 bits over at most `BLOCKS` blocks of 64 bytes: the words of 32 bits are added up modulo 2^32, and their high halves by
/// themselves; the sum of the low halves follows.
#[inline(always)]
fn lanes(blocks: &[[u8; 64]]) -> u32 {
    let mut all = [0u32; 16];
    let mut high = [0u32; 16];
    for block in blocks {
        for ((all, high), word) in all.iter_mut().zip(&mut high).zip(block.as_chunks().0) {
            let word = u32::from_le_bytes(*word);
            *all = all.wrapping_add(word);
            *high += word >> 16;
        }
    }
    let mut lanes: [u32; 16] = std::array::from_fn(|lane| all[lane].wrapping_sub(high[lane] << 16) + high[lane]);
    for half in [8, 4, 2, 1] {
        let (sums, added) = lanes.split_at_mut(half);
        sums.iter_mut().zip(added).for_each(|(sum, added)| *sum += *added);
    }
    lanes[0]
}
