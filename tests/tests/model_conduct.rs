//! The model by document 01: loose and careful conduct, phase by phase.

use swap_tests::game::{Game, GIVE_SECRET_BOB, GIVE_SIG_ALICE};
use swap_tests::model::position::Position;
use swap_tests::model::step;
use swap_tests::random::read;
use swap_tests::samples::{FIRST_SHARES, LOCK_A, LOCK_B};

#[test]
fn conduct_phases_0_to_2() {
    for conduct in [1, 2] {
        let game = Game::saswap(30, conduct, 1);
        assert_eq!(game.next([1, 0, 4, 2]), 13); // not as one step
        assert_eq!(game.next(GIVE_SIG_ALICE), 13);
        let one = game.clone().after(&[FIRST_SHARES[0]]);
        assert_eq!(one.next(FIRST_SHARES[0]), 13);
        assert_eq!(one.next([3, 0, 0, 2]), 13);
        let shared = |game: &Game| game.position().shared.into_iter().collect::<Vec<_>>();
        assert_eq!(shared(&one), [((4, 2), 1), ((6, 2), 1)]);
        let game = game.after(&FIRST_SHARES);
        let both = [((3, 2), 2), ((4, 2), 3), ((5, 2), 2), ((6, 2), 3)];
        assert_eq!(shared(&game), both);
        assert_eq!(game.next(FIRST_SHARES[1]), 13);
        assert_eq!(game.next([3, 1, 1, 2]), 13);
        assert_eq!(game.next([3, 1, 0, 2]), 13); // Bob may not send lock_A
        assert_eq!(game.next([3, 0, 4, 2]), 13);
        assert_eq!(game.next([4, 0, 0, 2]), 0);
        let game = game.after(&LOCK_A);
        assert_eq!(game.next([3, 0, 7, 0]), 16); // Alice may send
        assert_eq!(game.next([1, 0, 2, 2]), 13); // but shares nothing
        assert_eq!(game.next(GIVE_SIG_ALICE), 13); // and gives nothing
        assert_eq!(game.next([3, 1, 2, 2]), 16); // Bob may send
        assert_eq!(game.next(GIVE_SECRET_BOB), 13);
        let game = game.after(&LOCK_B);
        assert_eq!(game.next([3, 0, 7, 0]), 16); // Alice may send
        assert_eq!(game.next([3, 0, 0, 2]), 14); // what is confirmed gets 14
    }
}

/// Both locks confirmed under conduct.
fn phase_3(blocks_per_day: u16, conduct: u8) -> Game {
    Game::saswap(blocks_per_day, conduct, 1)
        .after(&FIRST_SHARES)
        .after(&LOCK_A)
        .after(&LOCK_B)
}

#[test]
fn conduct_phase_3_gifts_and_share() {
    for conduct in [1, 2] {
        let game = phase_3(30, conduct);
        assert_eq!(game.next(GIVE_SIG_ALICE), 13);
        assert_eq!(game.next(GIVE_SECRET_BOB), 13);
        assert_eq!(game.next([1, 0, 7, 1]), 13);
        let shared = game.clone().after(&[[1, 0, 2, 2]]);
        assert_eq!(shared.next([1, 0, 2, 2]), 13);
        assert_eq!(shared.next([2, 1, 1, 0]), 13);
        let given = shared.clone().after(&[GIVE_SECRET_BOB]);
        assert_eq!(given.next([2, 0, 2, 1]), 13);
        assert_eq!(given.next(GIVE_SIG_ALICE), 0);
        // Late from block 30, the lock height of refund_1, on.
        assert_eq!(shared.clone().at_blocks(29).next(GIVE_SECRET_BOB), 0);
        assert_eq!(shared.at_blocks(30).next(GIVE_SECRET_BOB), 13);
        assert_eq!(given.clone().at_blocks(29).next(GIVE_SIG_ALICE), 0);
        assert_eq!(given.at_blocks(30).next(GIVE_SIG_ALICE), 13);
        assert_eq!(game.clone().at_blocks(29).next([1, 0, 2, 2]), 0);
        assert_eq!(game.at_blocks(30).next([1, 0, 2, 2]), 13);
    }
}

#[test]
fn conduct_careful_sends_of_alice() {
    // refund_1 only while success has no shared entry.
    for (conduct, number) in [(1, 0), (2, 13)] {
        let game = phase_3(3, conduct);
        assert_eq!(game.clone().at_blocks(3).next([3, 0, 3, 2]), 0);
        let shared = game.after(&[[1, 0, 2, 2]]).at_blocks(3);
        assert_eq!(shared.next([3, 0, 3, 2]), number);
        assert_eq!(shared.next([4, 0, 3, 2]), number);
        assert_eq!(shared.next([3, 1, 3, 2]), 16); // the line is about Alice
    }
    // refund_2 not once she holds secretBob; spend_B then as before. Revoke is
    // confirmed in block 7, spend_B too so that no paying send is left to her.
    for (conduct, number) in [(1, 0), (2, 13)] {
        let game = phase_3(3, conduct).after(&[[1, 0, 2, 2], GIVE_SECRET_BOB]);
        assert_eq!(game.next([3, 0, 8, 0]), 0);
        let game = game.after(&[[4, 0, 8, 0]]).at_blocks(6);
        let game = game.after(&[[4, 1, 4, 2]]).at_blocks(10);
        assert_eq!(game.row(4).block, 7);
        assert_eq!(game.next([3, 0, 5, 2]), number);
    }
}

/// Lines of conduct that no journal can tell from lateness: refund_1 is sent,
/// and Bob knows secretAlice, only when it is late.
#[test]
fn conduct_lines_beside_lateness() {
    for conduct in [1, 2] {
        let game = phase_3(30, conduct);
        let (sheet, setup) = read(&game.sheet, &game.setup);
        let refusal = |position: &Position, bytes| step::refusal(&sheet, &setup, position, &bytes);
        let share = [1, 0, 2, 2];
        assert_eq!(refusal(&game.position(), share), 0);
        let mut pool = game.position();
        pool.pool.insert(3, 2);
        assert_eq!(refusal(&pool, share), 13);
        let mut confirmed = game.position();
        confirmed.confirmed.insert(3, confirmed.confirmed[&0]);
        assert_eq!(refusal(&confirmed, share), 13);
        let shared = game.after(&[share]).position();
        assert_eq!(refusal(&shared, GIVE_SECRET_BOB), 0);
        let mut held = shared.clone();
        held.held[1] |= 4;
        assert_eq!(refusal(&held, GIVE_SECRET_BOB), 13);
        let mut known = shared;
        known.add_shared(3, 2, 4);
        assert_eq!(refusal(&known, GIVE_SECRET_BOB), 13);
    }
}

#[test]
fn conduct_careful_pays_first() {
    // Alice can send spend_B, by the pool or, when a rival entry waits there, by
    // a hand-in.
    for (conduct, number) in [(1, 0), (2, 13)] {
        let game = phase_3(3, conduct).after(&[[1, 0, 2, 2], GIVE_SECRET_BOB]);
        let game = game.at_blocks(6);
        assert_eq!(game.next([3, 0, 4, 2]), number);
        assert_eq!(game.next([3, 1, 4, 2]), 0);
        let waiting = game.clone().after(&[[3, 0, 8, 0]]);
        assert_eq!(waiting.next([3, 0, 4, 2]), number);
        let both = waiting.after(&[[4, 0, 8, 0]]);
        assert_eq!(both.next([3, 0, 4, 2]), 0);
        // Without stealth only the pool counts.
        let mut game = game;
        game.setup[3] = 0;
        assert_eq!(game.next([3, 0, 4, 2]), number);
        assert_eq!(game.after(&[[3, 0, 8, 0]]).next([3, 0, 4, 2]), 0);
    }
}
