//! What stands behind the header of a packet that is too big (R25).

use super::inner::ICMPV6;

const HOP_BY_HOP: u8 = 0;
const ROUTING: u8 = 43;
const FRAGMENT: u8 = 44;
const DESTINATION: u8 = 60;
const REDIRECT: u8 = 137;
const UNIT: usize = 8;
/// The offset of a fragment, in its first eight bytes as a word.
const OFFSET: u64 = (0xfff8u16.swap_bytes() as u64) << 16;

/// Whether the extension headers end in the packet, with no fragment but a first one, and what stands behind them is neither an ICMPv6 error nor
/// a redirect, nor ICMPv6 with no byte left.
pub fn draws_message(mut next: u8, mut rest: &[u8]) -> bool {
    loop {
        let followed = match next {
            HOP_BY_HOP | ROUTING | DESTINATION => true,
            FRAGMENT => false,
            ICMPV6 => return rest.first().is_some_and(|&kind| kind >= 128 && kind != REDIRECT),
            _ => return true,
        };
        // None is shorter.
        let Some(front) = rest.first_chunk::<UNIT>() else { return false };
        let front = u64::from_le_bytes(*front);
        let mut length = UNIT;
        if followed {
            length += UNIT * usize::from((front >> 8) as u8);
        } else if front & OFFSET != 0 {
            return false;
        }
        let Some(behind) = rest.get(length..) else { return false };
        (next, rest) = (front as u8, behind);
    }
}
