//! Every position that a game can come to up to a number of blocks, by the library and the model side by side.

use crate::calls::ENGINE;
use crate::compare::{Game, Tally};
use crate::model::journal::Course;
use crate::model::open;
use crate::random::Random;
use std::collections::HashSet;

/// Compares in all positions with at most so many blocks mined.
pub fn positions(game: &Game, most_blocks: u32) -> Tally {
    let mut tally = Tally::of(ENGINE);
    let mut random = Random::new(0);
    let walked = walk(game, most_blocks, |course| {
        tally.position(&mut random, game, course, usize::MAX)
    });
    assert_eq!(tally.positions, walked);
    tally
}

/// Walks all positions with at most so many blocks mined: their number. A position counts once, however many journals
/// lead to it.
pub fn walk(game: &Game, most_blocks: u32, mut visit: impl FnMut(&Course)) -> usize {
    let fresh = Course::fresh(&game.sheet);
    let mut seen = HashSet::from([fresh.position.clone()]);
    let mut left = vec![fresh];
    while let Some(course) = left.pop() {
        visit(&course);
        let new = following(game, &course).filter(|next| {
            next.position.mined <= most_blocks && seen.insert(next.position.clone())
        });
        left.extend(new);
    }
    seen.len()
}

/// The course after each open step.
fn following<'a>(game: &'a Game, course: &'a Course) -> impl Iterator<Item = Course> + 'a {
    let open = open::steps(&game.sheet, &game.setup, &course.position);
    open.into_iter().map(|step| {
        let mut next = course.clone();
        next.take(&game.sheet, &game.setup, &step);
        next
    })
}
