//! Random journals, led by the model's open steps and salted with wrong ones.

use super::{damage_bytes, Random};
use crate::model::journal::Course;
use crate::model::position::Position;
use crate::model::setup::{self, Setup};
use crate::model::sheet::{self, Sheet};
use crate::model::step::{self, MOST_BLOCKS};
use crate::model::{heights, open};
use std::collections::{BTreeMap, BTreeSet};

/// The step that mines a block.
pub const MINE: [u8; 4] = [6, 2, 255, 2];

/// How a journal is made.
#[derive(Clone, Copy, Debug, PartialEq, Eq)]
pub struct Manner {
    /// Steps tried.
    pub length: usize,
    /// So many of a hundred are no chosen open step and mostly wrong.
    pub wrong: usize,
    /// The weight of each kind among the kinds that are open.
    pub weights: [usize; 7],
    /// So many of a hundred times some blocks are mined in a row first.
    pub idle: usize,
    /// So many of a hundred times blocks are mined up to a height that decides
    /// something.
    pub leap: usize,
}

/// A manner of any sort for a journal of at most so many steps.
pub fn manner(random: &mut Random, most: usize) -> Manner {
    Manner {
        length: random.below(most + 1),
        wrong: random.pick(&[0, 1, 5, 25]),
        weights: std::array::from_fn(|_| random.pick(&[1, 4, 16])),
        idle: random.pick(&[0, 0, 5, 20]),
        leap: 0,
    }
}

/// One of the open steps, which are not empty: its kind first, then the step.
pub fn choose(random: &mut Random, open: &[[u8; 4]], weights: &[usize; 7]) -> [u8; 4] {
    let weight = |kind: u8| weights[usize::from(kind) - 1];
    let kinds: BTreeSet<u8> = open.iter().map(|step| step[0]).collect();
    let total = kinds.iter().map(|&kind| weight(kind)).sum();
    let mut left = random.below(total);
    for kind in kinds {
        if left < weight(kind) {
            let steps = open.iter().copied().filter(|step| step[0] == kind);
            return random.pick(&steps.collect::<Vec<_>>());
        }
        left -= weight(kind);
    }
    unreachable!("the weights of the kinds are below their total")
}

/// Every four bytes that some kind could have, by their refusal.
pub fn by_refusal(
    sheet: &Sheet,
    setup: &Setup,
    position: &Position,
) -> BTreeMap<u32, Vec<[u8; 4]>> {
    let mut found: BTreeMap<u32, Vec<[u8; 4]>> = BTreeMap::new();
    for bytes in open::all_candidates(sheet) {
        let number = step::refusal(sheet, setup, position, &bytes);
        found.entry(number).or_default().push(bytes);
    }
    found
}

/// A step refused with 12 or more, each such number equally often; or four bytes
/// of zero where there is none.
fn refused_step(random: &mut Random, sheet: &Sheet, setup: &Setup, course: &Course) -> [u8; 4] {
    let refused = by_refusal(sheet, setup, &course.position).split_off(&12);
    let lists: Vec<&Vec<[u8; 4]>> = refused.values().collect();
    match lists.is_empty() {
        true => [0; 4],
        false => {
            let list = random.pick(&lists);
            random.pick(list)
        }
    }
}

/// Four bytes not far from the ranges.
pub fn near_step(random: &mut Random, sheet: &Sheet) -> [u8; 4] {
    let transaction = match random.percent(10) {
        true => 255,
        false => random.below(usize::from(sheet.count()) + 1) as u8,
    };
    let kind = random.below(9) as u8;
    // the numbers of the parties, of the miner or the contract, and one more
    let numbers = sheet.parties.len() + 2;
    let party = random.below(numbers) as u8;
    [kind, party, transaction, random.below(numbers) as u8]
}

/// Four bytes that are mostly no open step.
pub fn wrong_step(
    random: &mut Random,
    sheet: &Sheet,
    setup: &Setup,
    course: &Course,
    open: &[[u8; 4]],
) -> [u8; 4] {
    match random.below(12) {
        0 if !open.is_empty() => {
            let mut step = random.pick(open);
            damage_bytes(random, &mut step, 1);
            step
        }
        1 if !course.accepted.is_empty() => random.pick(&course.accepted),
        2 => near_step(random, sheet),
        3 => std::array::from_fn(|_| random.byte()),
        _ => refused_step(random, sheet, setup, course),
    }
}

/// A journal as 4-byte groups. Each group follows the accepted ones before it.
pub fn groups(random: &mut Random, sheet: &Sheet, setup: &Setup, manner: Manner) -> Vec<[u8; 4]> {
    let mut course = Course::fresh(sheet);
    let mut groups = Vec::with_capacity(manner.length);
    while groups.len() < manner.length {
        let left = manner.length - groups.len();
        groups.extend(more(random, sheet, setup, &mut course, &manner, left));
    }
    groups
}

/// What is tried next, at most so many steps: a row of blocks or one step.
pub fn more(
    random: &mut Random,
    sheet: &Sheet,
    setup: &Setup,
    course: &mut Course,
    manner: &Manner,
    left: usize,
) -> Vec<[u8; 4]> {
    if random.percent(manner.idle) {
        let most = random.between(1, 10).min(left);
        return vec![MINE; mines(sheet, setup, course, most)];
    }
    if manner.leap > 0 && random.percent(manner.leap) {
        let most = leap(random, sheet, setup, course).min(left);
        return vec![MINE; mines(sheet, setup, course, most)];
    }
    let open = open::steps(sheet, setup, &course.position);
    let step = match open.is_empty() || random.percent(wrong(manner, &open)) {
        true => wrong_step(random, sheet, setup, course, &open),
        false => choose(random, &open, &manner.weights),
    };
    course.take(sheet, setup, &step);
    vec![step]
}

/// The blocks up to a lock height or a deadline, one less or one more.
fn leap(random: &mut Random, sheet: &Sheet, setup: &Setup, course: &Course) -> usize {
    let position = &course.position;
    let ahead = position.mined + 1..=MOST_BLOCKS;
    let both = |t: u8| {
        let lock_height = heights::lock_height(sheet, setup, position, t);
        [lock_height, heights::deadline(sheet, setup, position, t)]
    };
    let all = (0..sheet.count()).flat_map(both);
    let heights: Vec<u32> = all.filter(|height| ahead.contains(height)).collect();
    match heights.is_empty() {
        true => 0,
        false => (random.pick(&heights) - ahead.start()) as usize + random.below(3),
    }
}

/// Wrong steps are tried more often where a bump is owed, which is seldom.
fn wrong(manner: &Manner, open: &[[u8; 4]]) -> usize {
    match manner.wrong > 0 && open.iter().any(|step| step[0] == 7) {
        true => 50,
        false => manner.wrong,
    }
}

/// Mines up to so many blocks in a row: how many were mined.
fn mines(sheet: &Sheet, setup: &Setup, course: &mut Course, most: usize) -> usize {
    (0..most)
        .take_while(|_| course.take(sheet, setup, &MINE) == 0)
        .count()
}

/// What the bytes of a sheet and a setup that are valid together stand for.
pub fn read(sheet: &[u8], setup: &[u8]) -> (Sheet, Setup) {
    let read_sheet = sheet::read(sheet).expect("a valid sheet");
    let read_setup = setup::read(sheet, setup).expect("a valid setup");
    (read_sheet, read_setup)
}

/// A journal for a sheet and a setup that are valid together.
pub fn journal(random: &mut Random, sheet: &[u8], setup: &[u8], manner: Manner) -> Vec<u8> {
    let (sheet, setup) = read(sheet, setup);
    groups(random, &sheet, &setup, manner).concat()
}

/// A random walk over a valid sheet and setup, looked at before the first step
/// and after each accepted one. A refused one changes nothing.
pub fn walk(
    random: &mut Random,
    game: &(Vec<u8>, Vec<u8>),
    manner: Manner,
    mut look: impl FnMut(&Sheet, &Setup, &Course),
) -> Course {
    let (sheet, setup) = read(&game.0, &game.1);
    let groups = groups(random, &sheet, &setup, manner);
    let mut course = Course::fresh(&sheet);
    look(&sheet, &setup, &course);
    for group in &groups {
        let before = course.clone();
        if course.take(&sheet, &setup, group) == 0 {
            look(&sheet, &setup, &course);
        } else {
            assert_eq!(course, before);
        }
    }
    course
}

/// Open steps in a row, up to a position where some step is refused with this
/// number, and that step; all of them where the walk comes by none.
pub fn led_journal(
    random: &mut Random,
    sheet: &[u8],
    setup: &[u8],
    manner: Manner,
    number: u32,
) -> Vec<u8> {
    let (sheet, setup) = read(sheet, setup);
    let manner = Manner { wrong: 0, ..manner };
    let mut course = Course::fresh(&sheet);
    for group in groups(random, &sheet, &setup, manner) {
        if random.percent(40) {
            let mut refused = by_refusal(&sheet, &setup, &course.position);
            if let Some(steps) = refused.remove(&number) {
                course.accepted.push(random.pick(&steps));
                break;
            }
        }
        course.take(&sheet, &setup, &group);
    }
    course.accepted.concat()
}
