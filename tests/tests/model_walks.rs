//! The model on random walks: the list of open steps, play and run, and positions that are sound.

use std::collections::BTreeSet;
use swap_tests::model::position::Position;
use swap_tests::model::setup::Setup;
use swap_tests::model::sheet::Sheet;
use swap_tests::model::{calls, heights, journal, open, report, step};
use swap_tests::random::{self, read, walk, Manner, Random};

/// A valid game of any sort.
fn any_game(random: &mut Random) -> (Vec<u8>, Vec<u8>) {
    match random.below(2) {
        0 => random::any_game(random),
        _ => {
            let conduct = random.below(3) as u8;
            random::saswap_game(random, conduct)
        }
    }
}

/// The list's order: party, kind, transaction, destination.
fn order(step: &[u8; 4]) -> [u8; 4] {
    [step[1], step[0], step[2], step[3]]
}

/// Steps accepted among bytes that reach beyond every range.
fn accepted_steps(sheet: &Sheet, setup: &Setup, position: &Position) -> BTreeSet<[u8; 4]> {
    let small = [0, 1, 2, 3, 4, 5, 6, 7, 8, 255];
    let mut found = BTreeSet::new();
    for kind in small {
        for party in [0, 1, 2, 3, 255] {
            for transaction in 0..=255 {
                for destination in [0, 1, 2, 3, 255] {
                    let bytes = [kind, party, transaction, destination];
                    if step::refusal(sheet, setup, position, &bytes) == 0 {
                        found.insert(order(&bytes));
                    }
                }
            }
        }
    }
    found
}

#[test]
fn open_list_is_the_accepted_steps() {
    let mut random = Random::new(4);
    let (mut positions, mut most, mut kinds) = (0, 0, BTreeSet::new());
    for _ in 0..60 {
        let game = any_game(&mut random);
        let manner = random::manner(&mut random, 60);
        walk(&mut random, &game, manner, |sheet, setup, course| {
            let open = open::steps(sheet, setup, &course.position);
            let in_order: Vec<[u8; 4]> = open.iter().map(order).collect();
            let accepted = accepted_steps(sheet, setup, &course.position);
            assert_eq!(in_order, accepted.into_iter().collect::<Vec<_>>());
            positions += 1;
            most = most.max(open.len());
            kinds.extend(open.iter().map(|step| step[0]));
        });
    }
    assert!(positions > 800, "{positions}");
    assert!((30..=265).contains(&most), "{most}");
    assert_eq!(kinds.len(), 7);
}

#[test]
fn open_steps_extend_the_journal() {
    let mut random = Random::new(5);
    let mut tried = 0;
    for _ in 0..150 {
        let game = any_game(&mut random);
        let manner = Manner {
            wrong: 0,
            ..random::manner(&mut random, 40)
        };
        let course = walk(&mut random, &game, manner, |_, _, _| {});
        let journal = course.accepted.concat();
        let open = calls::open_steps(&game.0, &game.1, &journal).unwrap();
        let (sheet, setup) = read(&game.0, &game.1);
        for step in &open {
            let longer = [&journal[..], step].concat();
            let run = calls::run(&game.0, &game.1, &longer);
            assert_eq!((run.refusal, run.accepted), (0, longer.len() / 4));
            tried += 1;
        }
        for _ in 0..50 {
            let step = random::wrong_step(&mut random, &sheet, &setup, &course, &open);
            let longer = [&journal[..], &step].concat();
            let run = calls::run(&game.0, &game.1, &longer);
            assert_eq!(run.refusal == 0, open.contains(&step));
            tried += 1;
        }
    }
    assert!(tried > 8_000, "{tried}");
}

#[test]
fn play_is_the_run_of_its_accepted_steps() {
    let mut random = Random::new(6);
    let (mut passed_over, mut accepted) = (0, 0);
    for _ in 0..400 {
        let game = any_game(&mut random);
        let (sheet, setup) = read(&game.0, &game.1);
        let manner = random::manner(&mut random, 60);
        let groups = random::groups(&mut random, &sheet, &setup, manner);
        let course = journal::play(&sheet, &setup, &groups);
        let (refusal, again) = journal::run(&sheet, &setup, &course.accepted);
        assert_eq!((refusal, &again), (0, &course));
        passed_over += groups.len() - course.accepted.len();
        accepted += course.accepted.len();
        // Run stops where play first passes over.
        let journal = groups.concat();
        let run = calls::run(&game.0, &game.1, &journal);
        assert_eq!(run.accepted == groups.len(), run.refusal == 0);
        assert_eq!(groups[..run.accepted], course.accepted[..run.accepted]);
    }
    assert!(passed_over > 300 && accepted > 5_000);
}

/// No two rivals stand together, parents stand below, and locks are reached.
fn assert_sound(sheet: &Sheet, setup: &Setup, position: &Position) {
    let confirmed: BTreeSet<u8> = position.confirmed.keys().copied().collect();
    for entries in [&position.pool, &position.block] {
        let mut there = confirmed.clone();
        there.extend(entries.keys());
        assert_eq!(there.len(), confirmed.len() + entries.len());
        for &t in &there {
            let rivals: Vec<&u8> = sheet.rivals(t).intersection(&there).collect();
            assert_eq!(rivals, [&t]);
            let parent = sheet.transaction(t).parent;
            assert!(parent.is_none_or(|p| there.contains(&p)));
        }
        for &t in entries.keys() {
            let lock = heights::lock_height(sheet, setup, position, t);
            assert!(lock <= position.mined);
            assert_eq!(report::status(sheet, position, t) & 12, 0);
        }
    }
}

#[test]
fn positions_are_sound() {
    let mut random = Random::new(10);
    let mut positions = 0;
    for _ in 0..500 {
        let game = any_game(&mut random);
        let manner = random::manner(&mut random, 80);
        walk(&mut random, &game, manner, |sheet, setup, course| {
            assert_sound(sheet, setup, &course.position);
            positions += 1;
        });
    }
    assert!(positions > 10_000, "{positions}");
}
