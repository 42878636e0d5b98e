//! Random sheets and setups that are valid.

use super::Random;
use crate::model::sheet::{self, MOST_SIGNATURES, MOST_TRANSACTIONS, OPENING, THREE};

/// How the parents of a sheet are chosen.
#[derive(Clone, Copy, Debug, PartialEq, Eq)]
pub enum Shape {
    /// Any lower number.
    Any,
    /// Mostly the transaction before, so lines are long.
    Deep,
    /// Mostly one of the first few, so rivals are many.
    Wide,
    /// Many openings.
    Coins,
}

pub const SHAPES: [Shape; 4] = [Shape::Any, Shape::Deep, Shape::Wide, Shape::Coins];

/// Sizes of any sort: transactions, signatures and the shape.
fn sizes(random: &mut Random) -> (u8, u8, Shape) {
    let n = random.between(1, usize::from(MOST_TRANSACTIONS)) as u8;
    let s = random.between(1, usize::from(MOST_SIGNATURES)) as u8;
    (n, s, random.pick(&SHAPES))
}

/// A valid sheet of two, of any size.
pub fn sheet(random: &mut Random) -> Vec<u8> {
    let (n, s, shape) = sizes(random);
    sheet_of(random, n, s, shape)
}

/// A valid sheet of three, of any size.
pub fn ring(random: &mut Random) -> Vec<u8> {
    let (n, s, shape) = sizes(random);
    ring_of(random, n, s, shape)
}

/// A valid sheet of two, of n transactions and s signatures.
pub fn sheet_of(random: &mut Random, n: u8, s: u8, shape: Shape) -> Vec<u8> {
    bytes_of(random, 2, n, s, shape)
}

/// A valid sheet of three, likewise.
pub fn ring_of(random: &mut Random, n: u8, s: u8, shape: Shape) -> Vec<u8> {
    let mut bytes = bytes_of(random, 3, n, s, shape);
    bytes[0] += THREE;
    bytes
}

/// The start masks of so many parties: any, and mostly somebody holds each signature.
fn held(random: &mut Random, parties: usize, all: u8) -> Vec<u8> {
    let mut masks: Vec<u8> = (1..parties).map(|_| random.byte() & all).collect();
    let others = masks.iter().fold(0, |masks, mask| masks | mask);
    masks.push(match random.percent(80) {
        true => (all & !others) | (random.byte() & random.byte() & all),
        false => random.byte() & all,
    });
    masks
}

/// Head and rows of a valid sheet of so many parties, with n as the first byte.
fn bytes_of(random: &mut Random, parties: usize, n: u8, s: u8, shape: Shape) -> Vec<u8> {
    let all = (1u16 << s).wrapping_sub(1) as u8;
    let held = held(random, parties, all);
    let secrets = random.byte() & random.byte() & all;
    let parents: Vec<u8> = (0..n).map(|t| parent(random, t, shape)).collect();
    let mut bytes = vec![n, s, secrets];
    bytes.extend(held);
    for t in 0..n {
        let payees = match parents.contains(&t) {
            true => 0,
            false => random.between(1, (1 << parties) - 1) as u8,
        };
        let veil = u8::from(random.percent(20));
        let needs = needs(random, s, all);
        bytes.extend([parents[usize::from(t)], payees, needs, veil]);
    }
    for &parent in &parents {
        bytes.extend(lock(random, parent));
    }
    bytes
}

fn parent(random: &mut Random, t: u8, shape: Shape) -> u8 {
    let openings = match shape {
        Shape::Coins => 40,
        _ => 8,
    };
    if t == 0 || random.percent(openings) {
        return OPENING;
    }
    let common = random.percent(80);
    match shape {
        Shape::Deep if common => t - 1,
        Shape::Wide if common => random.below(usize::from(t).min(3)) as u8,
        _ => random.below(usize::from(t)) as u8,
    }
}

/// Mostly one or two signatures, at times any of them.
fn needs(random: &mut Random, s: u8, all: u8) -> u8 {
    let one = 1u8 << random.below(usize::from(s));
    match random.below(10) {
        0..=5 => one,
        6..=8 => one | 1 << random.below(usize::from(s)),
        _ => one | random.byte() & all,
    }
}

/// A lock pair: every type, mostly few days. An opening has mostly none, since
/// no block is mined before the first one.
fn lock(random: &mut Random, parent: u8) -> [u8; 2] {
    let most = random.pick(&[1, 2, 2, 2, 3, 3, 4, 4, 8, 255]);
    let days = random.between(1, most) as u8;
    match random.below(10) {
        0..=3 => [0, 0],
        4..=8 if parent == OPENING => [0, 0],
        4..=6 => [1, days],
        _ if parent == OPENING => [1, days],
        _ => [2, days],
    }
}

/// Blocks per day in range, mostly few.
pub fn blocks_per_day(random: &mut Random) -> u16 {
    let most = if random.percent(85) { 4 } else { 1000 };
    random.between(1, most) as u16
}

/// A setup with the given blocks per day and conduct.
pub fn setup_of(random: &mut Random, blocks_per_day: u16, conduct: u8) -> Vec<u8> {
    let [low, high] = blocks_per_day.to_le_bytes();
    vec![low, high, conduct, u8::from(random.percent(50))]
}

/// A valid random sheet with a setup of open conduct.
pub fn any_game(random: &mut Random) -> (Vec<u8>, Vec<u8>) {
    let sheet = sheet(random);
    let blocks = blocks_per_day(random);
    (sheet, setup_of(random, blocks, 0))
}

/// The same of three parties.
pub fn ring_game(random: &mut Random) -> (Vec<u8>, Vec<u8>) {
    let sheet = ring(random);
    let blocks = blocks_per_day(random);
    (sheet, setup_of(random, blocks, 0))
}

/// The SASwap sheet with a fitting setup of the given conduct.
pub fn saswap_game(random: &mut Random, conduct: u8) -> (Vec<u8>, Vec<u8>) {
    let blocks = blocks_per_day(random);
    (sheet::saswap(blocks), setup_of(random, blocks, conduct))
}

/// A valid sheet and setup of any sort.
pub fn game(random: &mut Random) -> (Vec<u8>, Vec<u8>) {
    match random.below(4) {
        0 | 1 => any_game(random),
        2 => saswap_game(random, 0),
        _ => {
            let conduct = random.between(1, 2) as u8;
            saswap_game(random, conduct)
        }
    }
}
