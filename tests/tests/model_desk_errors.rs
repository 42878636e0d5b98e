//! The model by document 01: the desk errors, and what a mined block and a bump leave in pool and block.

use swap_tests::game::{p6_game, Game, GIVE_SECRET_BOB, GIVE_SIG_ALICE};
use swap_tests::model::heights::NEVER;
use swap_tests::model::{ALICE, BOB};
use swap_tests::random::MINE;
use swap_tests::samples::{LOCK_A, LOCK_B};

#[test]
fn desk_error_lock_reached_too_soon() {
    // Absolute: refund_1 has lock height 3. Bob lacks secretAlice, so Alice sends.
    let game = Game::saswap(3, 0, 1).after(&LOCK_A).after(&[[1, 1, 3, 2]]);
    assert_eq!(game.clone().at_blocks(2).next([3, 0, 3, 2]), 17);
    assert_eq!(game.at_blocks(3).next([3, 0, 3, 2]), 0);
    // Since the parent: timeout has lock height 13 after revoke in block 7.
    let game = p6_game().at_blocks(6);
    let game = game.after(&[[4, 1, 4, 2], MINE]);
    assert_eq!(game.clone().at_blocks(12).next([3, 1, 6, 2]), 17);
    assert_eq!(game.clone().at_blocks(12).next([4, 1, 6, 2]), 17);
    assert_eq!(game.at_blocks(13).next([3, 1, 6, 2]), 0);
}

#[test]
fn desk_error_deadline_from_the_own_lock() {
    let game = Game::saswap(3, 0, 0);
    assert_eq!(game.row(2).deadline, 3);
    assert_eq!(game.row(3).deadline, 6);
    assert_eq!(game.row(4).deadline, NEVER);
    assert_eq!(game.row(7).deadline, 3);
    // refund_1 passes at its own lock height.
    let game = Game::saswap(3, 0, 0).after(&LOCK_A).after(&[[1, 1, 3, 2]]);
    assert_eq!(game.clone().at_blocks(5).next([3, 0, 3, 2]), 0);
    assert_eq!(game.at_blocks(6).next([3, 0, 3, 2]), 18);
}

#[test]
fn desk_error_hand_in_shares_before_its_block() {
    // Success needs secretBob; spend_B to Alice needs it too.
    let game = Game::saswap(30, 0, 1).after(&LOCK_A).after(&LOCK_B);
    let game = game.after(&[GIVE_SIG_ALICE]);
    let spend_b = [3, 0, 8, 0];
    assert_eq!(game.next(spend_b), 16);
    let handed = game.clone().after(&[[4, 1, 2, 2]]);
    assert_eq!(handed.position().shared, game.position().shared);
    assert_eq!(handed.next(spend_b), 16);
    assert_eq!(handed.after(&[MINE]).next(spend_b), 0);
    // A pool send shares at once.
    assert_eq!(game.after(&[[3, 1, 2, 2]]).next(spend_b), 0);
}

#[test]
fn desk_error_spend_b_exposes_secrets() {
    // Bob shares refund_1 and has sigAlice; he lacks only secretAlice for it.
    let game = Game::saswap(3, 0, 1).after(&LOCK_A).after(&LOCK_B);
    let game = game.after(&[GIVE_SIG_ALICE, GIVE_SECRET_BOB]).at_blocks(3);
    let refund_1 = [3, 1, 3, 2];
    for kind in [3, 4] {
        let game = game.clone().after(&[[kind, 0, 8, 0]]);
        assert_eq!(game.next(refund_1), 16);
        let mined = match kind {
            3 => game.after(&[[5, 2, 8, 2], MINE]),
            _ => game.after(&[MINE]),
        };
        assert_eq!(mined.row(8).payee, ALICE);
        assert_eq!(mined.next(refund_1), 16);
        let outcome = mined.outcome();
        assert_eq!(outcome.course.position.shared_secrets(&outcome.sheet), 0);
    }
    // With the key of secretAlice it passes.
    assert_eq!(game.after(&[[2, 0, 2, 1]]).next(refund_1), 0);
}

/// 0 opens; 1 and 2 spend 0; 3 and 4 spend 1, 4 from day 1 on; 5 spends 2.
const CHAIN: [u8; 41] = [
    6, 1, 0, 1, 1, // sizes and masks
    255, 0, 1, 0, 0, 0, 1, 0, 0, 0, 1, 0, 1, 3, 1, 0, 1, 3, 1, 0, 2, 3, 1, 0, //
    0, 0, 0, 0, 0, 0, 0, 0, 1, 1, 0, 0,
];

#[test]
fn desk_error_bump_without_parent() {
    // At 1 a day transaction 3 has deadline 1: its bump is owed at once.
    let game = Game::other(&CHAIN, [1, 0, 0, 1]);
    let waiting = game.after(&[[3, 0, 0, 2], [3, 0, 1, 2], [3, 0, 3, 0]]);
    assert_eq!(waiting.next(MINE), 20);
    let bumped = waiting.clone().after(&[[7, 2, 3, 2]]);
    let statuses: Vec<u8> = (0..6).map(|t| bumped.row(t).status).collect();
    assert_eq!(statuses, [3, 3, 0, 3, 0, 0]);
    let mined = bumped.after(&[MINE]);
    let statuses: Vec<u8> = (0..6).map(|t| mined.row(t).status).collect();
    assert_eq!(statuses, [4, 4, 8, 4, 8, 8]);
    // Handed in: 0, its child 2 and 2's child 5. The bump expels 2 and 5 and
    // keeps 0, the parent of what enters.
    let waiting = waiting.after(&[[4, 1, 0, 2], [4, 1, 2, 2], [4, 1, 5, 1]]);
    let statuses: Vec<u8> = (0..6).map(|t| waiting.row(t).status).collect();
    assert_eq!(statuses, [3, 1, 2, 1, 0, 2]);
    let bumped = waiting.after(&[[7, 2, 3, 2]]);
    let statuses: Vec<u8> = (0..6).map(|t| bumped.row(t).status).collect();
    assert_eq!(statuses, [3, 3, 0, 3, 0, 0]);
}

/// Slip 1: "a mined transaction leaves the pool itself. Others leave exactly if
/// their line meets a different rival of a mined one."
#[test]
fn mining_clears_the_pool() {
    let statuses = |game: &Game| (0..6).map(|t| game.row(t).status).collect::<Vec<u8>>();
    let game = Game::other(&CHAIN, [10, 0, 0, 1]);
    let game = game.after(&[[3, 0, 0, 2], [3, 0, 1, 2], [3, 0, 3, 0]]);
    // A mined one leaves, and its waiting descendants stay.
    let mined = game.after(&[[5, 2, 0, 2], MINE]);
    assert_eq!(statuses(&mined), [4, 1, 0, 1, 0, 0]);
    // So they do at an empty block; a rival and the rival's descendants leave.
    let waiting = mined.after(&[MINE]);
    assert_eq!(statuses(&waiting), [4, 1, 0, 1, 0, 0]);
    let mined = waiting.after(&[[4, 0, 2, 2], MINE]);
    assert_eq!(statuses(&mined), [4, 8, 4, 8, 8, 0]);
}

#[test]
fn pool_and_block_with_different_destinations() {
    // Both parties know both signatures of spend_A.
    let game = p6_game().after(&[[2, 1, 1, 0]]);
    let game = game.after(&[[3, 0, 7, 0], [4, 1, 7, 1]]);
    assert_eq!(game.row(7).status, 3);
    let game = game.after(&[MINE]);
    assert_eq!((game.row(7).status, game.row(7).payee), (4, BOB));
    assert!(game.position().pool.is_empty());
    let shared = game.position().shared;
    assert!(shared.contains_key(&(7, 0)) && shared.contains_key(&(7, 1)));
}
