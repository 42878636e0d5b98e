//! Document 02, Slip 7: "A whole desk in one call."

use super::calls;

/// "count byte (0 to 64)"
pub const MOST_SWAPS: usize = 64;

/// A swap of a bundle.
#[derive(Clone, Copy, Debug, PartialEq, Eq)]
pub struct Swap<'a> {
    pub setup: &'a [u8],
    pub journal: &'a [u8],
}

/// The first bytes, and the others; nothing where there are too few.
fn split(bytes: &[u8], length: usize) -> Option<(&[u8], &[u8])> {
    (length <= bytes.len()).then(|| bytes.split_at(length))
}

/// "A bundle is one count byte (0 to 64), then two parallel arrays of 4-byte
/// setups and 4-byte journal lengths, then the journals end to end." Nothing
/// where it is 28: "when the bundle is empty or too short for its arrays, the
/// count is above 64, or the lengths don't add up to the bytes that follow".
pub fn swaps(bundle: &[u8]) -> Option<Vec<Swap<'_>>> {
    let (&count, rest) = bundle.split_first()?;
    let count = usize::from(count);
    if count > MOST_SWAPS {
        return None;
    }
    let (setups, rest) = split(rest, 4 * count)?;
    let (lengths, mut left) = split(rest, 4 * count)?;
    let mut swaps = vec![];
    for (setup, length) in setups.chunks(4).zip(lengths.chunks(4)) {
        let length = u32::from_le_bytes(length.try_into().expect("four bytes"));
        let (journal, after) = split(left, usize::try_from(length).expect("a size"))?;
        swaps.push(Swap { setup, journal });
        left = after;
    }
    left.is_empty().then_some(swaps)
}

/// The bytes of a bundle of these swaps.
pub fn bundle(swaps: &[(Vec<u8>, Vec<u8>)]) -> Vec<u8> {
    let mut bytes = vec![u8::try_from(swaps.len()).expect("a count byte")];
    for (setup, _) in swaps {
        bytes.extend(setup);
    }
    for (_, journal) in swaps {
        let length = u32::try_from(journal.len()).expect("four bytes");
        bytes.extend(length.to_le_bytes());
    }
    for (_, journal) in swaps {
        bytes.extend(journal);
    }
    bytes
}

/// Run every swap. "The answers, for each swap its number and then its accepted
/// count, 4 bytes each, equal those of single run calls in the same order. A
/// refusal in one swap doesn't touch the others. 25 when the buffer is under 8
/// bytes for each swap, tested after 28."; 28 is "tested after the sheet and
/// before any setup".
pub fn desk(sheet: &[u8], bundle: &[u8], output: &mut [u8]) -> u32 {
    match calls::check(sheet) {
        0 => {}
        number => return number,
    }
    let Some(swaps) = swaps(bundle) else {
        return 28;
    };
    if output.len() < 8 * swaps.len() {
        return 25;
    }
    for (swap, entry) in swaps.iter().zip(output.chunks_mut(8)) {
        let answer = calls::run(sheet, swap.setup, swap.journal);
        entry[..4].copy_from_slice(&answer.refusal.to_le_bytes());
        entry[4..].copy_from_slice(&(answer.accepted as u32).to_le_bytes());
    }
    0
}

/// The number that C gets from desk. No count is named.
pub fn desk_number(sheet: &[u8], bundle: &[u8], output: &mut [u8]) -> u32 {
    calls::number(desk(sheet, bundle, output), 0)
}
