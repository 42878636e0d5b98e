//! What a hand-in gives away: positions that differ in the block being filled alone have the same open steps of kinds 1, 2
//! and 3 and the same refusals of these, but under careful conduct with stealth. By the model, and by the built library.

use std::collections::BTreeMap;
use swap_tests::compare::Game;
use swap_tests::engine;
use swap_tests::model::journal::{self, Course};
use swap_tests::model::position::Position;
use swap_tests::model::{open, step};
use swap_tests::older;
use swap_tests::random::{self, Random, MINE};
use swap_tests::samples::FIRST_SHARES;

/// The turns of a walk.
const TURNS: usize = 30;
/// The steps of a row that both positions of a pair go through.
const ROW: usize = 12;

/// Two courses whose positions differ in the block being filled alone.
struct Pair {
    emptier: Course,
    fuller: Course,
}

impl Pair {
    fn courses(&self) -> [&Course; 2] {
        [&self.emptier, &self.fuller]
    }

    fn is_apart(&self) -> bool {
        let [emptier, fuller] = self.courses().map(|course| emptied(&course.position));
        emptier == fuller
    }
}

/// The position with nothing in the block being filled.
fn emptied(position: &Position) -> Position {
    Position {
        block: BTreeMap::new(),
        ..position.clone()
    }
}

/// Those of kinds 1, 2 and 3.
fn early(steps: impl IntoIterator<Item = [u8; 4]>) -> Vec<[u8; 4]> {
    let early = |step: &[u8; 4]| (1..=3).contains(&step[0]);
    steps.into_iter().filter(early).collect()
}

/// Every step of these kinds that some party could name, right or wrong.
fn candidates(game: &Game) -> Vec<[u8; 4]> {
    early(open::all_candidates(&game.sheet))
}

/// The course, and up to four more steps that change the block alone: hand-ins, inclusions, bumps.
fn filled(random: &mut Random, game: &Game, course: &Course) -> Course {
    let mut course = course.clone();
    for _ in 0..random.between(1, 4) {
        let mut fills = open::steps(&game.sheet, &game.setup, &course.position);
        fills.retain(|step| [4, 5, 7].contains(&step[0]));
        if !fills.is_empty() {
            course.take(&game.sheet, &game.setup, &random.pick(&fills));
        }
    }
    course
}

/// The pairs along a walk.
fn pairs(random: &mut Random, game: &Game) -> Vec<Pair> {
    let mut found = Vec::new();
    for emptier in older::walk(random, game, TURNS) {
        let fuller = filled(random, game, &emptier);
        if fuller.position != emptier.position {
            found.push(Pair { emptier, fuller });
        }
    }
    found
}

/// The model's open steps.
fn open_steps(game: &Game, course: &Course) -> Vec<[u8; 4]> {
    open::steps(&game.sheet, &game.setup, &course.position)
}

/// The steps that the built library lists.
fn listed(game: &Game, course: &Course) -> Vec<[u8; 4]> {
    let (sheet, setup, journal) = game.case(&course.accepted);
    let mut output = [0; 1_060];
    let number = engine::list(&sheet, &setup, &journal, &mut output);
    assert!(number < 65_536, "refused after {:?}", course.accepted);
    journal::groups(&output[..4 * number as usize])
}

/// The model's refusals of every step of kinds 1, 2 and 3.
fn refusals(game: &Game, course: &Course) -> Vec<u32> {
    let refusal = |step| step::refusal(&game.sheet, &game.setup, &course.position, step);
    candidates(game).iter().map(refusal).collect()
}

/// The same open steps, by the model and the library, and the same refusals.
fn assert_unseen(game: &Game, pair: &Pair) {
    let after = &pair.fuller.accepted;
    let [emptier, fuller] = pair.courses().map(|course| early(open_steps(game, course)));
    assert_eq!(emptier, fuller, "after {after:?}");
    let [emptier, fuller] = pair.courses().map(|course| early(listed(game, course)));
    assert_eq!(emptier, fuller, "after {after:?}");
    let [emptier, fuller] = pair.courses().map(|course| refusals(game, course));
    assert_eq!(emptier, fuller, "after {after:?}");
}

/// A row of steps of kinds 1, 2 and 3, open ones and any, leaves the pair apart in the block alone. The accepted ones.
fn assert_row(random: &mut Random, game: &Game, mut pair: Pair) -> usize {
    let any = candidates(game);
    let before = pair.emptier.accepted.len();
    for _ in 0..ROW {
        let open = early(open_steps(game, &pair.emptier));
        let step = match open.is_empty() || random.percent(50) {
            true => random.pick(&any),
            false => random.pick(&open),
        };
        let emptier = pair.emptier.take(&game.sheet, &game.setup, &step);
        let fuller = pair.fuller.take(&game.sheet, &game.setup, &step);
        assert_eq!(emptier, fuller, "{step:?} after {:?}", pair.fuller.accepted);
        assert!(pair.is_apart(), "{step:?} after {:?}", pair.fuller.accepted);
    }
    pair.emptier.accepted.len() - before
}

/// The pairs of so many games: how many they are, of how many the whole lists differ, and the accepted steps of their rows.
fn games(random: &mut Random, count: usize, game: impl Fn(&mut Random) -> Game) -> [usize; 3] {
    let mut counts = [0; 3];
    for _ in 0..count {
        let game = game(random);
        for pair in pairs(random, &game) {
            assert!(pair.is_apart(), "after {:?}", pair.fuller.accepted);
            assert_unseen(&game, &pair);
            let [emptier, fuller] = pair.courses().map(|course| listed(&game, course));
            counts[0] += 1;
            counts[1] += usize::from(emptier != fuller);
            counts[2] += assert_row(random, &game, pair);
        }
    }
    let [pairs, differ, accepted] = counts;
    println!("{pairs} pairs, {differ} with other steps of kinds 4 to 7, {accepted} steps accepted in rows");
    counts
}

/// The SASwap sheet with a conduct and a stealth.
fn saswap(random: &mut Random, conduct: u8, stealth: u8) -> Game {
    Game::saswap(random::blocks_per_day(random), conduct, stealth)
}

#[test]
fn random_sheets() {
    let game = |random: &mut Random| Game::new(random::any_game(random));
    let [pairs, differ, accepted] = games(&mut Random::new(131), 150, game);
    assert!(pairs >= 2_000 && differ >= 1_000 && accepted >= 1_000);
}

#[test]
fn open_and_loose() {
    for conduct in [0, 1] {
        let game = |random: &mut Random| saswap(random, conduct, 1);
        let [pairs, differ, accepted] = games(&mut Random::new(132), 100, game);
        assert!(pairs >= 1_000 && differ >= 500 && accepted >= 1_000);
    }
}

/// Nothing can be handed in, but included.
#[test]
fn careful_without_stealth() {
    let game = |random: &mut Random| saswap(random, 2, 0);
    let [pairs, differ, accepted] = games(&mut Random::new(133), 200, game);
    assert!(pairs >= 500 && differ >= 200 && accepted >= 300);
}

/// The exception: paying first looks at hand-ins.
#[test]
fn careful_with_stealth() {
    let mut random = Random::new(134);
    let (mut all, mut seen) = (0, 0);
    for _ in 0..100 {
        let game = saswap(&mut random, 2, 1);
        for pair in pairs(&mut random, &game) {
            let [emptier, fuller] = pair.courses().map(|course| early(listed(&game, course)));
            all += 1;
            seen += usize::from(emptier != fuller);
        }
    }
    println!("{all} pairs, {seen} with other steps of kinds 1 to 3");
    assert!(seen > 0);
}

/// Bob's success is in the block, so that he could hand in spend_success behind it; he can't send success to the pool then.
#[test]
fn careful_success() {
    let locks = [[4, 0, 0, 2], MINE, [4, 1, 1, 2], MINE, [1, 0, 2, 2]];
    let steps = [&FIRST_SHARES[..], &locks].concat();
    let send = [3, 1, 2, 2];
    for blocks_per_day in [1, 3, 144, 1_000] {
        let game = Game::saswap(blocks_per_day, 2, 1);
        let (number, emptier) = journal::run(&game.sheet, &game.setup, &steps);
        assert_eq!(number, 0);
        let mut fuller = emptier.clone();
        assert_eq!(fuller.take(&game.sheet, &game.setup, &[4, 1, 2, 2]), 0);
        let pair = Pair { emptier, fuller };
        assert!(pair.is_apart());
        for steps in [open_steps, listed] {
            let [emptier, fuller] = pair.courses().map(|course| steps(&game, course));
            assert!(emptier.contains(&send) && !fuller.contains(&send));
        }
        let [emptier, fuller] = pair.courses().map(|course| &course.position);
        let refusal = |position| step::refusal(&game.sheet, &game.setup, position, &send);
        assert_eq!([refusal(emptier), refusal(fuller)], [0, 13]);
    }
}
