//! The model with a slip of document 02 switched off, beside the model as it stands.

use crate::compare::Game;
use crate::model::journal::Course;
use crate::model::position::Position;
use crate::model::setup::Setup;
use crate::model::slips::Slips;
use crate::model::{open, step};
use crate::random::{self, Manner, Random};

/// The most blocks of one turn of a walk.
const LEAP: usize = 40;

/// The game by these slips.
pub fn by(game: &Game, slips: Slips) -> Setup {
    Setup {
        slips,
        ..game.setup
    }
}

/// The courses of a walk of so many turns over open steps, the empty one first.
pub fn walk(random: &mut Random, game: &Game, turns: usize) -> Vec<Course> {
    let manner = Manner {
        wrong: 0,
        leap: 12,
        ..random::manner(random, 0)
    };
    let mut courses = vec![Course::fresh(&game.sheet)];
    for turn in 0..turns {
        let mut course = courses[turn].clone();
        random::more(random, &game.sheet, &game.setup, &mut course, &manner, LEAP);
        courses.push(course);
    }
    courses
}

/// A step with its refusal by older rules and as the rules stand.
#[derive(Clone, Copy, Debug, PartialEq, Eq)]
pub struct Answer {
    pub step: [u8; 4],
    pub older: u32,
    pub now: u32,
}

/// Every four bytes that some kind could have, as the next step.
pub fn answers(game: &Game, position: &Position, slips: Slips) -> Vec<Answer> {
    let older = by(game, slips);
    let refusal = |setup: &Setup, step: &[u8; 4]| step::refusal(&game.sheet, setup, position, step);
    let steps = open::all_candidates(&game.sheet);
    steps
        .map(|step| Answer {
            step,
            older: refusal(&older, &step),
            now: refusal(&game.setup, &step),
        })
        .collect()
}
