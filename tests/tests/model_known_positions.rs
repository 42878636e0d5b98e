//! The model by document 01: the known positions P1 to P10, and Slip 5's offset.

use swap_tests::game::{p6_game, Game, Row};
use swap_tests::model::heights::NEVER;
use swap_tests::model::{calls, report, sheet, swapreport};
use swap_tests::random::{self, Random, MINE};
use swap_tests::samples::{LOCK_A, P10};

#[test]
fn p1_to_p3_lock_heights() {
    for (blocks_per_day, refund_1, revoke) in [(3, 3, 6), (1, 3, 4), (2, 4, 6)] {
        let game = Game::saswap(blocks_per_day, 0, 0);
        assert_eq!(game.row(3).lock_height, refund_1);
        assert_eq!(game.row(4).lock_height, revoke);
    }
}

/// Slip 5: "It is proved equal to document 01's for each of these".
#[test]
fn offset_is_document_01_s() {
    for blocks_per_day in 1..=1000 {
        let offset = sheet::offset(blocks_per_day);
        assert_eq!(offset, sheet::offset_in_document_01(blocks_per_day));
    }
    assert_eq!([0, 1, 2, 3].map(sheet::offset), [0, 2, 1, 0]);
}

#[test]
fn p4_revoke_in_block_7() {
    let game = p6_game().at_blocks(6);
    let game = game.after(&[[3, 1, 4, 2], [5, 2, 4, 2], MINE]);
    assert_eq!(game.row(4).block, 7);
    assert_eq!(game.row(5).lock_height, 10);
    assert_eq!(game.row(6).lock_height, 13);
    assert_eq!(game.row(5).deadline, 13);
    assert_eq!(game.row(12).deadline, 10);
}

#[test]
fn p5_revoke_unconfirmed() {
    for game in [Game::saswap(3, 0, 0), p6_game().at_blocks(8)] {
        assert_eq!(game.row(12).deadline, NEVER);
        assert_eq!(game.row(5).lock_height, NEVER);
    }
}

#[test]
fn p6_success_and_its_deadline() {
    assert_eq!(p6_game().at_blocks(2).next([3, 1, 2, 2]), 0);
    assert_eq!(p6_game().at_blocks(3).next([3, 1, 2, 2]), 18);
    assert_eq!(p6_game().at_blocks(3).next([4, 1, 2, 2]), 0);
}

#[test]
fn p7_revoke_and_its_lock() {
    for kind in [3, 4] {
        assert_eq!(p6_game().at_blocks(5).next([kind, 1, 4, 2]), 17);
        assert_eq!(p6_game().at_blocks(6).next([kind, 1, 4, 2]), 0);
    }
}

#[test]
fn p8_empty_journal() {
    let mut random = Random::new(8);
    let mut games = vec![random::saswap_game(&mut random, 2)];
    games.extend((0..200).map(|_| random::any_game(&mut random)));
    for (sheet, setup) in games {
        let bytes = calls::report_bytes(&sheet, &setup, &[]).unwrap();
        assert_eq!(bytes.len(), report::ROW * usize::from(sheet[0]));
        for row in bytes.chunks_exact(report::ROW) {
            assert_eq!(row[..6], [0, 255, 0, 0, 0, 0]);
        }
    }
}

#[test]
fn p9_saswap_sheet() {
    for blocks_per_day in 1..=1000 {
        let bytes = sheet::saswap(blocks_per_day);
        assert_eq!(bytes.len(), 95);
        assert_eq!(calls::check(&bytes), 0);
        assert_eq!(bytes == sheet::saswap(3), blocks_per_day >= 3);
    }
    let three_a_day = [
        15, 4, 12, 5, 10, 255, 0, 1, 0, 255, 0, 2, 0, 0, 0, 11, 0, 0, 0, 7, 0, 0, 0, 3, 0, 4, 0, 7,
        0, 4, 0, 3, 0, 0, 3, 3, 0, 1, 3, 12, 1, 2, 2, 2, 0, 3, 2, 3, 0, 3, 1, 1, 0, 4, 3, 3, 0, 5,
        1, 1, 0, 6, 2, 2, 0, 0, 0, 0, 0, 0, 0, 1, 1, 1, 2, 2, 1, 2, 2, 0, 0, 0, 0, 0, 0, 0, 0, 2,
        1, 0, 0, 0, 0, 0, 0,
    ];
    assert_eq!(sheet::saswap(3), three_a_day);
}

#[test]
fn p10_report() {
    let game = Game::other(&P10, [1, 0, 0, 0]);
    let steps = [
        [3, 0, 0, 2],
        [5, 2, 0, 2],
        MINE,
        [3, 1, 1, 1],
        [5, 2, 1, 2],
        MINE,
    ];
    let game = game.after(&steps);
    assert_eq!(
        calls::run_number(&game.sheet, &game.setup, &game.journal),
        6
    );
    assert_eq!(game.position().mined, 2);
    let row = |payee, block, lock_height| Row {
        status: 4,
        payee,
        block,
        lock_height,
        deadline: 2_147_483_647,
    };
    assert_eq!(game.row(0), row(2, 1, 0));
    assert_eq!(game.row(1), row(1, 2, 1));
}

#[test]
fn p10_text() {
    let setup = [1, 0, 0, 0];
    let steps = [LOCK_A[0], LOCK_A[1], MINE, [3, 1, 1, 1], [5, 2, 1, 2], MINE];
    let mut journal = steps.concat();
    assert_eq!(
        swapreport::text(&P10, &setup, &journal),
        "6 0 2\n0 4 2 1 0 2147483647\n1 4 1 2 1 2147483647\n"
    );
    journal.extend([3, 1, 1, 1]);
    assert_eq!(swapreport::text(&P10, &setup, &journal), "6 14 0\n");
    assert_eq!(swapreport::text(&P10, &setup, &journal[1..]), "0 24 0\n");
    assert_eq!(swapreport::text(&[], &setup, &journal), "0 1 0\n");
}
