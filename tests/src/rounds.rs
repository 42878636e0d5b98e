//! The rounds of the long comparison. Each has a walk over the SASwap sheet, a walk over a random sheet, a case that is
//! led to a refusal, a case of any sort, and a case that ends in a row of blocks; each fourth one a walk over a sheet of
//! three.

use crate::calls::Calls;
use crate::compare::{Game, Tally};
use crate::model::journal;
use crate::model::step::MOST_BLOCKS;
use crate::random::{self, Manner, Random, Shape, MINE, SHAPES};
use crate::samples::{FIRST_SHARES, LOCK_A};
use std::ops::Range;

/// The blocks per day of the SASwap sheets.
const BLOCKS_PER_DAY: [u16; 7] = [1, 2, 3, 4, 7, 144, 1000];
/// The turns of a walk.
const TURNS: usize = 30;
/// The steps of a case's journal, at most.
const STEPS: usize = 80;
/// The blocks of a row at the end of a journal, at most.
const ROW: usize = 80;

/// The rounds of these numbers, for one version of the calls. 42 in a row have each of the blocks per day with each
/// conduct and stealth, 256 in a row each number of transactions with each number of signatures, and 1,024 these with
/// each shape.
pub fn rounds(tested: Calls, seed: u64, numbers: Range<usize>) -> Tally {
    let mut tally = Tally::of(tested);
    let first = Random::new(seed).number();
    for number in numbers {
        let mut random = Random::new(first.wrapping_add(number as u64));
        saswap(&mut tally, &mut random, number);
        any_sheet(&mut tally, &mut random, number);
        led_case(&mut tally, &mut random, number);
        let case = random::case(&mut random, STEPS);
        tally.case(&mut random, &case);
        row_case(&mut tally, &mut random);
        if number % 4 == 0 {
            ring(&mut tally, &mut random, number / 4);
        }
    }
    tally
}

/// A manner of walking.
fn manner(random: &mut Random) -> Manner {
    Manner {
        leap: 12,
        ..random::manner(random, 0)
    }
}

/// The SASwap sheet with the setup of this number.
fn saswap_game(number: usize) -> Game {
    let blocks_per_day = BLOCKS_PER_DAY[number % 7];
    let (conduct, stealth) = (number / 7 % 3, number / 21 % 2);
    Game::saswap(blocks_per_day, conduct as u8, stealth as u8)
}

fn saswap(tally: &mut Tally, random: &mut Random, number: usize) {
    let manner = manner(random);
    tally.walk(random, &saswap_game(number), manner, TURNS);
}

/// A valid sheet of two or three, of so many transactions and signatures.
type SheetOf = fn(&mut Random, u8, u8, Shape) -> Vec<u8>;

fn any_sheet(tally: &mut Tally, random: &mut Random, number: usize) {
    any_of(tally, random, number, random::sheet_of);
}

fn ring(tally: &mut Tally, random: &mut Random, number: usize) {
    any_of(tally, random, number, random::ring_of);
}

/// A walk over a sheet with the sizes and the shape of this number.
fn any_of(tally: &mut Tally, random: &mut Random, number: usize, sheet_of: SheetOf) {
    let (n, s) = (number % 32 + 1, number / 32 % 8 + 1);
    let shape = SHAPES[(number / 32 + number / 256) % 4];
    let sheet = sheet_of(random, n as u8, s as u8, shape);
    let blocks_per_day = random::blocks_per_day(random);
    let setup = random::setup_of(random, blocks_per_day, 0);
    let manner = manner(random);
    tally.walk(random, &Game::new((sheet, setup)), manner, TURNS);
}

/// So many cases of any sort, and as many that are led to each refusal in turn.
pub fn cases(tally: &mut Tally, random: &mut Random, count: usize) {
    for number in 0..count {
        let case = random::case(random, STEPS);
        tally.case(random, &case);
        led_case(tally, random, number);
    }
}

/// A case that is led to one of the refusals 1 to 24. 23 needs a long journal, so it comes seldom.
fn led_case(tally: &mut Tally, random: &mut Random, number: usize) {
    match number % 24 + 1 {
        23 if number % 480 == 22 => last_block(tally, random, number / 480),
        refusal => {
            let case = random::led_case(random, STEPS, refusal as u32);
            tally.case(random, &case);
        }
    }
}

/// A case that is led to a bump owed, and whose journal goes on with a row of blocks, refused or not.
fn row_case(tally: &mut Tally, random: &mut Random) {
    let (sheet, setup, mut journal) = random::led_case(random, STEPS, 20);
    journal.extend(MINE.repeat(random.below(ROW + 1)));
    tally.case(random, &(sheet, setup, journal));
}

/// 0 opens, 1 and 2 spend it, 2 from block 10,001 on at 137 blocks per day. So a bump of 1 can be owed at the last block.
const OWED: [u8; 23] = [
    3, 1, 0, 1, 1, // sizes and masks
    255, 0, 1, 0, 0, 3, 1, 0, 0, 3, 1, 0, //
    0, 0, 0, 0, 1, 73,
];

/// The positions with one block less than the most and with the most, a bump there, and one block more.
fn last_block(tally: &mut Tally, random: &mut Random, number: usize) {
    let game = match number % 2 {
        0 => saswap_game(number / 2),
        _ => Game::new((OWED.to_vec(), vec![137, 0, 0, 1])),
    };
    // both first shares where the conduct knows them, 0 confirmed, and 1 sent where it pays
    let mut steps = [&FIRST_SHARES[..], &LOCK_A, &[[3, 0, 1, 0]]].concat();
    steps.extend(vec![MINE; MOST_BLOCKS as usize - 2]);
    let mut course = journal::play(&game.sheet, &game.setup, &steps);
    for blocks in [MOST_BLOCKS - 1, MOST_BLOCKS] {
        assert_eq!(course.position.mined, blocks);
        tally.position(random, &game, &course, 2);
        course.take(&game.sheet, &game.setup, &MINE);
    }
    for step in [[7, 2, 1, 2], MINE] {
        let longer = [&course.accepted[..], &[step]].concat();
        tally.case(random, &game.case(&longer));
    }
}
