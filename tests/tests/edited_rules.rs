//! The claims of demand 3 with one line of the rules broken: for each fault a journal on which a claim is false with it,
//! while all claims are true of the same steps without it. The journals were found by a search.

use std::collections::HashSet;
use swap_tests::compare::Game;
use swap_tests::model::conduct::{REFUND_1, SECRET_ALICE};
use swap_tests::model::faults::Faults;
use swap_tests::model::journal::{self, Course};
use swap_tests::model::setup::{Conduct, Setup};
use swap_tests::model::{claims, ledger, open, report, CONTRACT};
use swap_tests::random::MINE;
use swap_tests::samples::{FIRST_SHARES, P10};

/// A claim that is false of a course of steps.
#[derive(Clone, Copy, Debug, PartialEq, Eq)]
enum False {
    /// The ledger refuses what was confirmed.
    LedgerAccepts,
    /// It accepts it, with other holders.
    HoldersAgree,
    /// Careful: both secrets are known beyond their owners.
    OneSecretKept,
    /// Careful: one party is paid from two coins.
    PaidOnce,
}

fn with(game: &Game, faults: Faults) -> Setup {
    Setup {
        faults,
        ..game.setup
    }
}

/// The first claim that is false, if one is.
fn false_claim(game: &Game, course: &Course) -> Option<False> {
    let (sheet, setup, position) = (&game.sheet, &game.setup, &course.position);
    if ledger::holders(sheet, setup.blocks_per_day, &course.entries).is_none() {
        return Some(False::LedgerAccepts);
    }
    let report = report::bytes(sheet, setup, course);
    let careful = setup.conduct == Conduct::Careful;
    if !claims::ledger_agrees(sheet, setup, course, &report) {
        Some(False::HoldersAgree)
    } else if careful && claims::both_secrets_out(sheet, position) {
        Some(False::OneSecretKept)
    } else if careful && claims::paid_twice(sheet, position) {
        Some(False::PaidOnce)
    } else {
        None
    }
}

/// The false claim after a journal that is accepted whole with a fault. Without it, refused steps passed over, all claims
/// are true; the first refusal there comes too, 0 if there is none.
fn broken(game: &Game, faults: Faults, steps: &[[u8; 4]]) -> (u32, Option<False>) {
    let right = journal::play(&game.sheet, &game.setup, steps);
    assert_eq!(false_claim(game, &right), None);
    let (refusal, course) = journal::run(&game.sheet, &with(game, faults), steps);
    assert_eq!(refusal, 0, "at step {}", course.accepted.len());
    let (number, _) = journal::run(&game.sheet, &game.setup, steps);
    (number, false_claim(game, &course))
}

/// An open game with stealth, at 1 block per day.
fn open_game(sheet: &[u8]) -> Game {
    Game::new((sheet.to_vec(), vec![1, 0, 0, 1]))
}

/// Transactions 1 to 3 spend 0; 1 and 2 pay Alice, 3 pays Bob and has a lock of one day.
const RIVALS: [u8; 29] = [
    4, 1, 0, 1, 1, // sizes and masks
    255, 0, 1, 0, 0, 1, 1, 0, 0, 1, 1, 0, 0, 2, 1, 0, // parents, payees, needs, veil
    0, 0, 0, 0, 0, 0, 1, 1, // locks
];

#[test]
fn a_lock_a_block_early() {
    let faults = Faults {
        lock_a_block_early: true,
        ..Faults::NONE
    };
    // P10's: 1 has a lock of one day, and stands in block 1.
    let steps = [[4, 0, 0, 2], [4, 1, 1, 1], MINE];
    assert_eq!(
        broken(&open_game(&P10), faults, &steps),
        (17, Some(False::LedgerAccepts))
    );
    // Careful: refund_1 has lock height 3, and stands in block 3.
    let locked = [[4, 0, 0, 2], MINE, [4, 1, 1, 2], MINE];
    let steps = [&FIRST_SHARES[..], &locked, &[[4, 0, 3, 2], MINE]].concat();
    let game = Game::saswap(1, 2, 1);
    assert_eq!(
        broken(&game, faults, &steps),
        (17, Some(False::LedgerAccepts))
    );
}

#[test]
fn a_bump_that_enters_alone() {
    let faults = Faults {
        bump_alone: true,
        ..Faults::NONE
    };
    // 1 is mined, and its parent is not.
    let steps = [[3, 0, 0, 2], [3, 0, 1, 0], [7, 2, 1, 2], MINE];
    assert_eq!(
        broken(&open_game(&RIVALS), faults, &steps),
        (0, Some(False::LedgerAccepts))
    );
    // Careful: no bump is owed below a waiting parent, since nothing is sent before lock_A is confirmed and the locks below
    // its children are since them.
    let game = Game::saswap(1, 2, 1);
    assert!(every_position_true(&game, faults, 9) > 10_000);
}

#[test]
fn a_bump_that_keeps_rivals_in_the_block() {
    let faults = Faults {
        bump_beside_rivals: true,
        ..Faults::NONE
    };
    // 1 and 2 are mined in one block.
    let handed_in = [[4, 0, 0, 2], [4, 0, 2, 0]];
    let bumped = [[3, 0, 0, 2], [3, 0, 1, 0], [7, 2, 1, 2], MINE];
    let steps = [&handed_in[..], &bumped].concat();
    assert_eq!(
        broken(&open_game(&RIVALS), faults, &steps),
        (0, Some(False::LedgerAccepts))
    );
    // Careful: spend_A and success are mined in one block.
    let locked = [[4, 0, 0, 2], MINE, [4, 1, 1, 2], MINE];
    let given = [[1, 0, 2, 2], [2, 1, 3, 0], [3, 1, 2, 2], [2, 0, 0, 1]];
    let bumped = [[4, 1, 7, 1], [7, 2, 2, 2], MINE];
    let steps = [&FIRST_SHARES[..], &locked, &given, &bumped].concat();
    let game = Game::saswap(1, 2, 1);
    assert_eq!(
        broken(&game, faults, &steps),
        (0, Some(False::LedgerAccepts))
    );
}

#[test]
fn mining_while_a_bump_is_owed() {
    let faults = Faults {
        mines_though_owed: true,
        ..Faults::NONE
    };
    let game = Game::saswap(1, 2, 1);
    let locked = [[4, 0, 0, 2], MINE, [4, 1, 1, 2], MINE];
    // Success waits in the pool, with secretBob shared, and is not mined by its deadline; Alice takes spend_B, hands in
    // revoke and sends refund_2, which shares secretAlice.
    let waiting = [[1, 0, 2, 2], [3, 1, 2, 2], [4, 0, 8, 0], MINE, MINE];
    let revoked = [[4, 0, 4, 2], MINE, MINE, [3, 0, 5, 2]];
    let steps = [&FIRST_SHARES[..], &locked, &waiting, &revoked].concat();
    assert_eq!(
        broken(&game, faults, &steps),
        (20, Some(False::OneSecretKept))
    );
    // refund_1 waits in the pool, with secretAlice shared, and is not mined by its deadline; Bob takes spend_B, and after
    // revoke and timeout coin A.
    let waiting = [MINE, [3, 0, 3, 2], [4, 1, 8, 1], MINE];
    let revoked = [[4, 0, 4, 2], MINE, MINE, MINE];
    let timed_out = [[4, 0, 6, 2], [4, 1, 14, 1], MINE];
    let steps = [&FIRST_SHARES[..], &locked, &waiting, &revoked, &timed_out].concat();
    assert_eq!(broken(&game, faults, &steps), (20, Some(False::PaidOnce)));
}

/// What is handed in leaves the block before it is mined only by a bump, and on the SASwap sheet none brings the other
/// secret out. So the claims are true of a hand-in that shares before its block, in every position at 1 block per day up
/// to 9 blocks. What breaks is what is said of the hand-in itself: with it alone, secretAlice is known.
#[test]
fn a_hand_in_that_shares() {
    let faults = Faults {
        hand_in_shares: true,
        ..Faults::NONE
    };
    let game = Game::saswap(1, 2, 1);
    let locked = [[4, 0, 0, 2], MINE, [4, 1, 1, 2], MINE, MINE];
    let steps = [&FIRST_SHARES[..], &locked, &[[4, 0, REFUND_1, CONTRACT]]].concat();
    let known = |setup: &Setup| {
        let (refusal, course) = journal::run(&game.sheet, setup, &steps);
        assert_eq!(refusal, 0);
        claims::secrets_out(&game.sheet, &course.position)
    };
    assert_eq!(known(&game.setup), 0);
    assert_eq!(known(&with(&game, faults)), 1 << SECRET_ALICE);
    assert!(every_position_true(&game, faults, 9) > 10_000);
}

/// The number of positions with a fault, up to so many blocks: the claims are true in each.
fn every_position_true(game: &Game, faults: Faults, most_blocks: u32) -> usize {
    let setup = with(game, faults);
    let fresh = Course::fresh(&game.sheet);
    let mut seen = HashSet::from([fresh.position.clone()]);
    let mut left = vec![fresh];
    while let Some(course) = left.pop() {
        assert_eq!(false_claim(game, &course), None);
        for step in open::steps(&game.sheet, &setup, &course.position) {
            let mut next = course.clone();
            next.take(&game.sheet, &setup, &step);
            if next.position.mined <= most_blocks && seen.insert(next.position.clone()) {
                left.push(next);
            }
        }
    }
    seen.len()
}
