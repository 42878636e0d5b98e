//! Random damage: any bytes changed, or one rule of a sheet broken.

use super::Random;
use crate::model::sheet::{Head, MOST_SIGNATURES, OPENING, THREE};

/// Changes so many bytes, each to another value; an empty string stays.
pub fn damage_bytes(random: &mut Random, bytes: &mut [u8], times: usize) {
    for _ in 0..times {
        if bytes.is_empty() {
            return;
        }
        let place = random.below(bytes.len());
        let change = match random.below(4) {
            0 => 1,
            1 => 255,
            2 => 1 << random.below(8),
            _ => random.between(1, 255) as u8,
        };
        bytes[place] = bytes[place].wrapping_add(change);
    }
}

/// Cuts the end off, at least one byte; an empty string stays.
pub fn truncate(random: &mut Random, bytes: &mut Vec<u8>) {
    let length = random.below(bytes.len().max(1));
    bytes.truncate(length);
}

/// Adds one to eight bytes.
pub fn extend(random: &mut Random, bytes: &mut Vec<u8>) {
    let length = random.between(1, 8);
    bytes.extend(random.bytes(length));
}

/// One change of any sort: one byte, several, a cut or an addition.
pub fn damage(random: &mut Random, bytes: &mut Vec<u8>) {
    match random.below(8) {
        0..=3 => damage_bytes(random, bytes, 1),
        4..=5 => {
            let times = random.between(2, 6);
            damage_bytes(random, bytes, times);
        }
        6 => truncate(random, bytes),
        _ => extend(random, bytes),
    }
}

/// Breaks a valid sheet so that it fails the check of this number, 1 to 8. As a
/// byte, 256 is 0.
pub fn break_sheet(random: &mut Random, bytes: &mut Vec<u8>, number: u32) {
    let (s, head) = (bytes[1], Head::of(bytes).bytes());
    match number {
        1 => bytes.truncate(random.below(head)),
        2 => bytes[0] = no_count(random.between(33, 256) as u8),
        3 if s < MOST_SIGNATURES && random.percent(60) => {
            bytes[random.between(2, head - 1)] |= beyond(random, s);
        }
        3 => bytes[1] = random.between(9, 256) as u8,
        4 if random.percent(50) => bytes.truncate(random.between(head, bytes.len() - 1)),
        4 => extend(random, bytes),
        _ => break_row(random, bytes, number),
    }
}

/// A first byte with which n is out of range, whatever it announces.
fn no_count(first: u8) -> u8 {
    match first.checked_sub(THREE) {
        Some(1..=32) => first - 32,
        _ => first,
    }
}

/// The bit of a signature number of s or more, where s is below 8.
fn beyond(random: &mut Random, s: u8) -> u8 {
    1 << random.between(usize::from(s), 7)
}

/// The same for one transaction of the sheet, checks 5 to 8.
fn break_row(random: &mut Random, bytes: &mut [u8], number: u32) {
    let Head { count, parties } = Head::of(bytes);
    let (n, s) = (usize::from(count), bytes[1]);
    let t = random.below(n);
    let start = 3 + parties.len();
    let (head, lock) = (start + 4 * t, start + 4 * n + 2 * t);
    let opening = bytes[head] == OPENING;
    match (number, random.below(4)) {
        (5, _) => bytes[head] = random.between(t, 254) as u8,
        (6, 0) => bytes[head + 1] = random.between(1 << parties.len(), 255) as u8,
        (6, 1) => bytes[head + 3] = random.between(2, 255) as u8,
        (6, 2) if s < MOST_SIGNATURES => bytes[head + 2] |= beyond(random, s),
        (6, _) => bytes[head + 2] = 0,
        (7, 0) => bytes[lock] = random.between(3, 255) as u8,
        (7, 1) if opening => bytes[lock..lock + 2].copy_from_slice(&[2, 1]),
        (7, _) if bytes[lock] == 0 => bytes[lock + 1] = random.between(1, 255) as u8,
        (7, _) => bytes[lock + 1] = 0,
        (_, change) => bytes[head + 1] = contrary(bytes[head + 1], change),
    }
}

/// Payees where there were none, and none where there were some.
fn contrary(payees: u8, change: usize) -> u8 {
    match payees {
        0 => change as u8 % 3 + 1,
        _ => 0,
    }
}
