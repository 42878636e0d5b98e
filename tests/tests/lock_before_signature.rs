//! Slip 3: "kinds 3 and 4 that met both 16 and 17 got 16 and now get 17. A step that meets only one of them answers as it
//! did, and so does one refused by a number below 16. ... the accepted steps are the same set."

use swap_tests::calls::{Inputs, ENGINE, FAST};
use swap_tests::compare::Game;
use swap_tests::model::calls::number;
use swap_tests::model::heights;
use swap_tests::model::journal::Course;
use swap_tests::model::position::Position;
use swap_tests::model::slips::Slips;
use swap_tests::older::{self, Answer};
use swap_tests::random::{self, Random};

/// The rules with document 01's order of the tests of a send.
const OLDER: Slips = Slips {
    lock_before_signature: false,
    ..Slips::ALL
};
/// The turns of a walk.
const TURNS: usize = 60;

/// What was put to both orders; the sends by kind 3 and 4.
#[derive(Debug, Default)]
struct Tally {
    positions: usize,
    steps: usize,
    accepted: usize,
    /// Sends that met both 16 and 17.
    both: [usize; 2],
    only_16: [usize; 2],
    only_17: [usize; 2],
    /// Sends that lack signatures before their lock and are refused by a number below 16.
    lower: [usize; 2],
}

/// 16: a required signature that the sender has not.
fn unsigned(game: &Game, position: &Position, [_, party, t, to]: [u8; 4]) -> bool {
    let has = position.signatures(&game.sheet, party, t, to);
    game.sheet.transaction(t).needs & !has != 0
}

/// 17: a lock height above the blocks mined.
fn locked(game: &Game, position: &Position, t: u8) -> bool {
    heights::lock_height(&game.sheet, &game.setup, position, t) > position.mined
}

impl Tally {
    /// One step on a position, with its number by document 01's order and as it is.
    fn add(&mut self, game: &Game, course: &Course, answer: Answer) {
        let Answer { step, older, now } = answer;
        self.steps += 1;
        self.accepted += usize::from(now == 0);
        match step[0] {
            3 | 4 if older != 11 => self.add_send(game, course, answer),
            _ => assert_eq!(older, now, "{step:?}"),
        }
        if older != now {
            same_calls(game, course, step, now);
        }
    }

    /// The numbers of a send are those that its signatures and its lock call for.
    fn add_send(&mut self, game: &Game, course: &Course, answer: Answer) {
        let Answer { step, older, now } = answer;
        let kind = usize::from(step[0] - 3);
        let unsigned = unsigned(game, &course.position, step);
        let locked = locked(game, &course.position, step[2]);
        if (12..=15).contains(&older) {
            self.lower[kind] += usize::from(unsigned && locked);
            return assert_eq!(older, now, "{step:?}");
        }
        let (expected, count) = match (unsigned, locked) {
            (true, true) => ((16, 17), &mut self.both),
            (true, false) => ((16, 16), &mut self.only_16),
            (false, true) => ((17, 17), &mut self.only_17),
            (false, false) => {
                assert!(now == 0 || now == 18 && kind == 0, "{step:?}");
                return assert_eq!(older, now, "{step:?}");
            }
        };
        count[kind] += 1;
        assert_eq!((older, now), expected, "{step:?}");
    }

    /// All positions of a walk, with every step that could come next.
    fn walk(&mut self, random: &mut Random, game: &Game) {
        for course in older::walk(random, game, TURNS) {
            self.positions += 1;
            for answer in older::answers(game, &course.position, OLDER) {
                self.add(game, &course, answer);
            }
        }
    }

    fn check(&self, least: usize) {
        println!("{self:?}");
        assert!(self.accepted > least);
        for counts in [self.both, self.only_16, self.only_17, self.lower] {
            assert!(counts.iter().all(|&count| count > least), "{counts:?}");
        }
    }
}

/// The built library and the fast version answer the number too.
fn same_calls(game: &Game, course: &Course, step: [u8; 4], now: u32) {
    let steps = [&course.accepted[..], &[step]].concat();
    let case = game.case(&steps);
    let Inputs {
        sheet,
        setup,
        journal,
    } = Inputs::of(&case);
    let expected = number(now, course.accepted.len());
    for calls in [ENGINE, FAST] {
        assert_eq!((calls.run)(sheet, setup, journal), expected);
    }
}

#[test]
fn saswap() {
    let mut tally = Tally::default();
    let mut random = Random::new(3);
    for number in 0..480 {
        let blocks_per_day = [1, 2, 3, 30][number % 4];
        let (conduct, stealth) = (number / 4 % 3, number / 12 % 2);
        let game = Game::saswap(blocks_per_day, conduct as u8, stealth as u8);
        tally.walk(&mut random, &game);
    }
    tally.check(1_500);
}

#[test]
fn any_sheet() {
    let mut tally = Tally::default();
    let mut random = Random::new(4);
    for _ in 0..400 {
        let game = Game::new(random::any_game(&mut random));
        tally.walk(&mut random, &game);
    }
    tally.check(1_500);
}
