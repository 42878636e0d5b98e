//! The built library's call slack against the model's, and against the game itself: sound and damaged inputs, buffers of every
//! length, walks, all positions of the SASwap sheet and of random small sheets of two and three.

use std::collections::BTreeMap;
use swap_tests::adversary::Graph;
use swap_tests::compare::Game;
use swap_tests::engine;
use swap_tests::every;
use swap_tests::model::heights::NEVER;
use swap_tests::model::journal::Course;
use swap_tests::random::{self, Case, Manner, Random, MINE};
use swap_tests::samples::LOCK_A;
use swap_tests::slack::row::{self, Row, LONGEST, ROW};
use swap_tests::slack::search::{small_game, Exact};
use swap_tests::slack::Outlook;

/// The bytes on either side of a lent buffer.
const GUARD: usize = 13;
/// The outages, in blocks, whose dangers are counted.
const OUTAGES: [u32; 3] = [1, 2, 3];

/// What was compared, all of it equal.
#[derive(Debug, Default)]
struct Tally {
    /// The answers by refusal.
    answers: BTreeMap<u32, usize>,
    rows: usize,
    /// The rows that say: paid or safe for as long as can be asked, none kept, kept for no block, to be sent now.
    longest: usize,
    never: usize,
    none: usize,
    due: usize,
}

impl Tally {
    /// One call with a buffer of so many bytes, filled at random.
    fn call(&mut self, random: &mut Random, case: &Case, length: usize) {
        let (sheet, setup, journal) = case;
        let mut buffer = random.bytes(GUARD + length + GUARD);
        let mut modelled = buffer.clone();
        let answer = engine::slack(sheet, setup, journal, &mut buffer[GUARD..GUARD + length]);
        let expected = &mut modelled[GUARD..GUARD + length];
        let number = row::number(sheet, setup, journal, expected);
        assert_eq!(answer, number, "{length} bytes, {case:?}");
        assert_eq!(buffer, modelled, "{length} bytes, {case:?}");
        assert_eq!(answer & 0xffff, 0);
        *self.answers.entry(answer >> 16).or_default() += 1;
        if answer == 0 {
            let parties = match sheet[0] < 128 {
                true => 2,
                false => 3,
            };
            self.count(&buffer[GUARD..GUARD + parties * ROW]);
        }
    }

    fn count(&mut self, rows: &[u8]) {
        for row in rows.chunks_exact(ROW).map(Row::read) {
            self.rows += 1;
            self.longest += usize::from(row.blocks == LONGEST);
            self.never += usize::from(row.blocks == NEVER);
            self.none += usize::from(row.blocks == 0);
            self.due += usize::from(row.due);
        }
    }

    /// One case, with buffers exact, one short, one more, long and empty.
    fn case(&mut self, random: &mut Random, case: &Case) {
        let exact = match case.0.first() {
            Some(128..) => 3 * ROW,
            _ => 2 * ROW,
        };
        for length in [exact, exact - 1, exact + 1, exact + 40, 0] {
            self.call(random, case, length);
        }
    }
}

/// The rows that the library writes after a journal.
fn rows(game: &Game, steps: &[[u8; 4]]) -> Vec<Row> {
    let (sheet, setup, journal) = game.case(steps);
    let mut output = vec![0; ROW * game.sheet.parties.len()];
    assert_eq!(engine::slack(&sheet, &setup, &journal, &mut output), 0);
    output.chunks_exact(ROW).map(Row::read).collect()
}

/// A party's row is the model's, and says of each short outage whether it is kept.
fn assert_modelled(game: &Game, course: &Course, party: u8, row: &Row) {
    let (sheet, setup, position) = (&game.sheet, &game.setup, &course.position);
    let steps = &course.accepted;
    assert_eq!(*row, Row::of(sheet, setup, position, party), "{steps:?}");
    let outlook = Outlook::of(sheet, setup, position, party);
    for blocks in [0, 1, 2, 3] {
        let lasts = outlook.lasts(blocks);
        assert_eq!(row.keeps(blocks), lasts, "{blocks}: {steps:?}");
    }
}

#[test]
fn every_refusal() {
    let mut random = Random::new(71);
    let mut tally = Tally::default();
    let numbers: Vec<u32> = (1..=22).chain([24]).collect();
    for turn in 0..3_000 {
        let case = match turn % 4 {
            0 => random::led_case(&mut random, 40, numbers[turn / 4 % numbers.len()]),
            1 => random::ring_case(&mut random, 40),
            _ => random::case(&mut random, 40),
        };
        tally.case(&mut random, &case);
    }
    let steps = [&LOCK_A[..], &vec![MINE; 10_000]].concat();
    for length in [steps.len() - 1, steps.len()] {
        let case = Game::saswap(3, 0, 1).case(&steps[..length]);
        tally.case(&mut random, &case);
    }
    println!("{tally:?}");
    let refusals: Vec<u32> = (0..=25).chain([32]).collect();
    assert!(tally.answers.keys().eq(&refusals));
    assert!(tally.longest > 0 && tally.never > 0);
}

/// Walks over open steps, on any sheet, on rings and on the SASwap sheet under each conduct.
#[test]
fn walks() {
    let mut random = Random::new(72);
    let mut tally = Tally::default();
    for turn in 0..250 {
        let game = Game::new(match turn % 5 {
            0 => random::any_game(&mut random),
            1 => random::ring_game(&mut random),
            conduct => random::saswap_game(&mut random, conduct as u8 - 2),
        });
        let manner = Manner {
            wrong: 0,
            ..random::manner(&mut random, 30)
        };
        let (sheet, setup) = (&game.sheet, &game.setup);
        let mut course = Course::fresh(sheet);
        for _ in 0..12 {
            random::more(&mut random, sheet, setup, &mut course, &manner, 300);
            tally.call(&mut random, &game.case(&course.accepted), 3 * ROW);
        }
    }
    println!("{tally:?}");
    let between = tally.rows - tally.longest - tally.never - tally.none;
    assert!(between > 500 && tally.none > 0);
    // where the slack is 0, what is counted on can be sent or handed in now
    assert_eq!(tally.none, tally.due);
}

/// The greatest number that is kept, found by asking for each from 10,000 down, is the one that is written.
#[test]
fn greatest() {
    let mut random = Random::new(73);
    let mut found = [0; 3];
    for turn in 0..30 {
        let game = Game::new(match turn % 3 {
            0 => random::ring_game(&mut random),
            conduct => random::saswap_game(&mut random, conduct as u8),
        });
        let (sheet, setup) = (&game.sheet, &game.setup);
        let manner = random::manner(&mut random, 20);
        let mut course = Course::fresh(sheet);
        for _ in 0..turn % 10 {
            random::more(&mut random, sheet, setup, &mut course, &manner, 30);
        }
        for (&party, row) in sheet.parties.iter().zip(rows(&game, &course.accepted)) {
            let outlook = Outlook::of(sheet, setup, &course.position, party);
            let greatest = (0..=LONGEST).rev().find(|&k| outlook.lasts(k));
            assert_eq!(greatest.unwrap_or(NEVER), row.blocks);
            let sort = match row.blocks {
                LONGEST => 0,
                NEVER => 1,
                _ => 2,
            };
            found[sort] += 1;
        }
    }
    println!("10,000, never, other: {found:?}");
    assert!(found.iter().all(|&count| count > 5));
}

/// What is counted of the positions of a game.
#[derive(Clone, Copy, Debug, Default, PartialEq, Eq)]
struct Places {
    positions: usize,
    /// The dangers of short outages.
    dangers: usize,
    /// No payout is given up, and the party and the miner alone bring none: none is secured yet.
    unsecured: usize,
    /// The slack is less than the longest outage without danger.
    short: usize,
}

/// In every position up to so many blocks the library's rows are the model's; where they say that a payout lasts it is not given up,
/// and no outage up to the slack, however long, brings it there.
fn positions(game: &Game, graph: &Graph, blocks: u32) -> Places {
    let parties = game.sheet.parties;
    let sides: Vec<Exact> = parties.iter().map(|&side| Exact::of(graph, side)).collect();
    let mut places = Places::default();
    every::walk(game, blocks, |course| {
        let found = rows(game, &course.accepted);
        let number = graph.number(&course.position);
        for ((row, exact), &party) in found.iter().zip(&sides).zip(parties) {
            assert_modelled(game, course, party, row);
            let (given_up, ends) = (exact.fate.given_up[number], exact.fate.blocks[number]);
            let lost = given_up || ends.is_some_and(|blocks| row.keeps(blocks));
            assert!(!row.keeps(0) || !lost, "{row:?} {:?}", course.accepted);
            let danger = |outage| !given_up && ends.is_some_and(|blocks| blocks <= outage);
            places.dangers += OUTAGES.into_iter().filter(|&k| danger(k)).count();
            places.unsecured += usize::from(!given_up && exact.alone[number].is_none());
            places.short += usize::from(row.blocks != exact.slack(number));
        }
        places.positions += 1;
    });
    places
}

fn saswap(conduct: u8, stealth: u8, blocks: u32) -> Places {
    let game = Game::saswap(1, conduct, stealth);
    let found = positions(&game, &Graph::of(&game), blocks);
    println!("conduct {conduct}, stealth {stealth}: {found:?}");
    found
}

/// In all careful positions, and in the loose ones without stealth, an outage of k blocks is said to be kept exactly where the payout
/// is not given up and there is no danger, for each k: `short` is 0. In the few that are unsecured nothing is said to be kept.
#[test]
fn careful_positions() {
    let expected = Places {
        positions: 6_957,
        dangers: 42 + 92 + 263,
        unsecured: 6,
        short: 0,
    };
    assert_eq!(saswap(2, 0, 9), expected);
}

#[test]
fn careful_positions_with_stealth() {
    let expected = Places {
        positions: 17_784,
        dangers: 268 + 323 + 575,
        unsecured: 6,
        short: 0,
    };
    assert_eq!(saswap(2, 1, 9), expected);
}

#[test]
fn loose_positions() {
    let expected = Places {
        positions: 9_252,
        dangers: 1_342,
        unsecured: 6,
        short: 0,
    };
    assert_eq!(saswap(1, 0, 9), expected);
}

/// Random sheets of two and three whose game has few positions.
#[test]
fn small_sheets() {
    let mut random = Random::new(4243);
    let mut found = [0; 3];
    for game in (0..400).filter_map(|_| small_game(&mut random)) {
        if let Some(graph) = Graph::of_any(&game, 500) {
            let places = positions(&game, &graph, 4);
            found = [
                found[0] + 1,
                found[1] + places.positions,
                found[2] + places.dangers,
            ];
        }
    }
    println!("games, positions and dangers: {found:?}");
    assert!(found[0] > 30 && found[1] > 10_000 && found[2] > 5_000);
}
