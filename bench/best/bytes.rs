//! Words of bytes as numbers, in the machine's order, little end first: as such they are compared, summed and stored. A number of the rules
//! is a word with its bytes exchanged.

#[inline(always)]
pub fn word16<const N: usize>(bytes: &[u8; N], at: usize) -> u16 {
    u16::from_le_bytes(*bytes[at..].first_chunk().expect("bytes of the header"))
}

#[inline(always)]
pub fn word32<const N: usize>(bytes: &[u8; N], at: usize) -> u32 {
    u32::from_le_bytes(*bytes[at..].first_chunk().expect("bytes of the header"))
}

#[inline(always)]
pub fn word64<const N: usize>(bytes: &[u8; N], at: usize) -> u64 {
    u64::from_le_bytes(*bytes[at..].first_chunk().expect("bytes of the header"))
}

/// Writes words of 64 bits one behind the other.
#[inline(always)]
pub fn put_words<const N: usize>(bytes: &mut [u8], words: [u64; N]) {
    for (place, word) in bytes.as_chunks_mut().0.iter_mut().zip(words) {
        *place = word.to_le_bytes();
    }
}

/// The upper 32 bits: of the eight bytes of a word, the last four.
#[inline(always)]
pub fn upper(word: u64) -> u32 {
    (word >> 32) as u32
}

/// The word of two halves of 32 bits.
#[inline(always)]
pub fn word_of(lower: u32, upper: u32) -> u64 {
    u64::from(lower) | u64::from(upper) << 32
}
