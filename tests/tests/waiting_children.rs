//! Slip 1: a child that waits in the pool stays there when its parent is mined. On journals with such a child the built library is held
//! to the amended model, on all others to the older rule as well.

use swap_tests::calls::ENGINE;
use swap_tests::compare::{Game, Tally};
use swap_tests::model::calls;
use swap_tests::model::journal::Course;
use swap_tests::model::position::Position;
use swap_tests::model::sheet::Sheet;
use swap_tests::model::slips::Slips;
use swap_tests::random::{self, Manner, Random, Shape, MINE};
use swap_tests::{engine, older};

/// Document 01's rule in the place of Slip 1.
const OLDER: Slips = Slips {
    waiting_children_stay: false,
    ..Slips::ALL
};
/// The steps of a journal.
const STEPS: usize = 30;

/// What was met, all of it as it should be.
#[derive(Default)]
struct Met {
    /// Journals in which no child waited while its parent was mined: both rules and the library agree step by step.
    without: usize,
    /// Journals in which one did: the library agrees with the amended model.
    with: usize,
    /// Steps that the library and the model answered.
    steps: usize,
    /// Answers of these that differ from those by the older rule.
    differing: usize,
}

/// Whether a child waits in the pool, outside the block, whose parent is in the block.
fn child_waits(sheet: &Sheet, position: &Position) -> bool {
    let mut waiting = position.pool.keys().filter(|&&t| !position.in_block(t));
    waiting.any(|&t| {
        let parent = sheet.transaction(t).parent;
        parent.is_some_and(|parent| position.in_block(parent))
    })
}

/// One more step: the library's answer is the model's.
fn assert_answer(game: &Game, course: &Course, step: [u8; 4], number: u32) {
    let (sheet, setup, journal) = game.case(&[&course.accepted[..], &[step]].concat());
    let count = course.accepted.len() + usize::from(number == 0);
    let answer = engine::run(&sheet, &setup, &journal);
    assert_eq!(
        answer,
        calls::number(number, count),
        "{step:?} after {course:?}"
    );
}

/// Plays a journal by the library, by the amended model and by the older rule, refused steps passed over.
fn play(met: &mut Met, tally: &mut Tally, random: &mut Random, game: &Game, steps: &[[u8; 4]]) {
    let by_older = older::by(game, OLDER);
    let mut amended = Course::fresh(&game.sheet);
    let mut before = amended.clone();
    let mut child = false;
    for step in steps {
        child |= *step == MINE && child_waits(&game.sheet, &amended.position);
        let course = amended.clone();
        let number = amended.take(&game.sheet, &game.setup, step);
        assert_answer(game, &course, *step, number);
        let older = before.take(&game.sheet, &by_older, step);
        if !child {
            assert_eq!((number, &amended), (older, &before), "{step:?}");
        }
        met.steps += 1;
        met.differing += usize::from(number != older);
    }
    met.with += usize::from(child);
    met.without += usize::from(!child);
    tally.case(random, &game.case(&amended.accepted));
}

/// A sheet of up to twelve transactions, or the SASwap sheet under some conduct.
fn game(random: &mut Random, number: usize) -> Game {
    if number % 10 == 0 {
        let conduct = number / 10 % 3;
        return Game::new(random::saswap_game(random, conduct as u8));
    }
    let (n, s) = (random.between(3, 12), random.between(1, 2));
    let shape = random.pick(&[Shape::Any, Shape::Deep]);
    let sheet = random::sheet_of(random, n as u8, s as u8, shape);
    let blocks_per_day = random::blocks_per_day(random);
    let setup = random::setup_of(random, blocks_per_day, 0);
    Game::new((sheet, setup))
}

/// So many journals of open steps, mostly sends, inclusions and blocks, and some wrong ones.
fn journals(seed: u64, count: usize) -> Met {
    let mut random = Random::new(seed);
    let mut tally = Tally::of(ENGINE);
    let mut met = Met::default();
    for number in 0..count {
        let game = game(&mut random, number);
        let manner = Manner {
            length: STEPS,
            wrong: 5,
            weights: [2, 2, 16, 1, 4, 4, 4],
            idle: 0,
            leap: 4,
        };
        let steps = random::groups(&mut random, &game.sheet, &game.setup, manner);
        play(&mut met, &mut tally, &mut random, &game, &steps);
    }
    println!("{tally}");
    met
}

/// Half of the journals.
fn half(seed: u64) {
    let Met {
        without,
        with,
        steps,
        differing,
    } = journals(seed, 13_500);
    println!(
        "{with} journals in which a child waited while its parent was mined, {without} without"
    );
    println!("{steps} steps compared, {differing} answers differ from the older rule's");
    assert!(with >= 5_000 && without >= 1_000 && differing >= 1_000);
}

#[test]
fn first_half() {
    half(31);
}

#[test]
fn second_half() {
    half(32);
}
