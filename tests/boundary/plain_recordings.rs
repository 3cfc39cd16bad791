//! Two recordings compared (docs/RULES.md, R27) in plain Rust.

use super::rules::Refusal;

/// The identification, the TTL and the checksum.
const MASKED: [usize; 5] = [4, 5, 8, 10, 11];

/// Which of two recordings has more datagrams.
#[derive(Clone, Copy, Debug, PartialEq, Eq)]
pub enum More {
    Neither = 0,
    First = 1,
    Second = 2,
}

/// The report's length and which recording has more datagrams; the report is written to the output's front.
pub fn compare(masked: bool, first: &[u8], second: &[u8], out: &mut [u8]) -> Result<(usize, More), Refusal> {
    let (Some(first), Some(second)) = (datagrams(first), datagrams(second)) else {
        return Err(Refusal::Recording);
    };
    let report = report(masked, &first, &second);
    out.get_mut(..report.len()).ok_or(Refusal::Room)?.copy_from_slice(&report);
    let more = match first.len().cmp(&second.len()) {
        std::cmp::Ordering::Less => More::Second,
        std::cmp::Ordering::Equal => More::Neither,
        std::cmp::Ordering::Greater => More::First,
    };
    Ok((report.len(), more))
}

/// The datagrams, without their interfaces, if these bytes are a recording.
fn datagrams(recording: &[u8]) -> Option<Vec<&[u8]>> {
    let (count, mut rest) = recording.split_first_chunk()?;
    let mut found = Vec::new();
    for _ in 0..u16::from_be_bytes(*count) {
        let ([_, high, low], behind) = rest.split_first_chunk()?;
        let length = u16::from_be_bytes([*high, *low]).into();
        found.push(behind.get(..length)?);
        rest = &behind[length..];
    }
    rest.is_empty().then_some(found)
}

fn report(masked: bool, first: &[&[u8]], second: &[&[u8]]) -> Vec<u8> {
    let mut report = Vec::new();
    for (place, (one, other)) in first.iter().zip(second).enumerate() {
        for (offset, length) in runs(masked, one, other) {
            for number in [place + 1, offset, length] {
                report.extend(u16::try_from(number).expect("counts and lengths have 16 bits").to_be_bytes());
            }
        }
    }
    report
}

/// Offset and length of each run of a pair.
fn runs(masked: bool, one: &[u8], other: &[u8]) -> Vec<(usize, usize)> {
    let differs = |&offset: &usize| match (one.get(offset), other.get(offset)) {
        (Some(byte), Some(partner)) => byte != partner && !(masked && MASKED.contains(&offset)),
        (byte, partner) => byte != partner,
    };
    let end = one.len().max(other.len());
    let mut found = Vec::new();
    let mut behind = 0;
    while let Some(offset) = (behind..end).find(differs) {
        let length = (offset..end).take_while(differs).count();
        found.push((offset, length));
        behind = offset + length;
    }
    found
}
