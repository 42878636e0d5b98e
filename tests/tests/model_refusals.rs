//! The model by document 01: the refusal table row by row, and the buffers of list and report.

use swap_tests::game::{p6_game, Game, GIVE_SIG_ALICE};
use swap_tests::model::{calls, report, sheet};
use swap_tests::random::{self, Case, Random, MINE};
use swap_tests::samples::{LOCK_A, LOCK_B, P10};

/// One opening that pays either party, with one signature held by Alice.
const ONE: [u8; 11] = [1, 1, 0, 1, 0, 255, 3, 1, 0, 0, 0];

/// A sheet with some bytes changed.
fn changed(sheet: &[u8], changes: &[(usize, u8)]) -> Vec<u8> {
    let mut bytes = sheet.to_vec();
    for &(place, value) in changes {
        bytes[place] = value;
    }
    bytes
}

#[test]
fn rows_1_to_4() {
    assert_eq!(calls::check(&ONE), 0);
    for length in 0..5 {
        assert_eq!(calls::check(&ONE[..length]), 1);
    }
    assert_eq!(calls::check(&[0, 1, 0, 0, 0]), 2);
    for (n, number) in [(0, 2), (33, 2), (255, 2), (32, 4), (2, 4)] {
        assert_eq!(calls::check(&changed(&ONE, &[(0, n)])), number);
    }
    assert_eq!(calls::check(&[1, 9, 0, 0, 0]), 3);
    assert_eq!(calls::check(&changed(&ONE, &[(1, 0)])), 3);
    for place in 2..5 {
        for s in 1..=8u8 {
            let most = ((1u16 << s) - 1) as u8;
            assert_eq!(calls::check(&changed(&ONE, &[(1, s), (place, most)])), 0);
            if s < 8 {
                let beyond = changed(&ONE, &[(1, s), (place, most + 1)]);
                assert_eq!(calls::check(&beyond), 3);
            }
        }
    }
    assert_eq!(calls::check(&[1, 1, 0, 1, 0]), 4);
    assert_eq!(calls::check(&ONE[..10]), 4);
    assert_eq!(calls::check(&[&ONE[..], &[0]].concat()), 4);
    // 2 and 3 stand before 4.
    assert_eq!(calls::check(&[0, 9, 0, 0, 0, 0]), 2);
    assert_eq!(calls::check(&[1, 9, 0, 0, 0, 0]), 3);
}

#[test]
fn rows_5_to_8() {
    assert_eq!(calls::check(&changed(&ONE, &[(5, 0)])), 5);
    assert_eq!(calls::check(&changed(&ONE, &[(5, 254)])), 5);
    assert_eq!(calls::check(&changed(&P10, &[(9, 1)])), 5);
    for (place, value) in [(6, 4), (7, 0), (7, 2), (8, 2)] {
        assert_eq!(calls::check(&changed(&ONE, &[(place, value)])), 6);
    }
    assert_eq!(calls::check(&changed(&ONE, &[(8, 1)])), 0);
    for (lock_type, days, number) in [
        (2, 1, 7),
        (2, 0, 7),
        (1, 0, 7),
        (0, 1, 7),
        (3, 1, 7),
        (1, 1, 0),
        (1, 255, 0),
    ] {
        let bytes = changed(&ONE, &[(9, lock_type), (10, days)]);
        assert_eq!(calls::check(&bytes), number);
    }
    assert_eq!(calls::check(&changed(&P10, &[(15, 2)])), 0);
    assert_eq!(calls::check(&changed(&P10, &[(15, 2), (16, 0)])), 7);
    assert_eq!(calls::check(&changed(&ONE, &[(6, 0)])), 8);
    assert_eq!(calls::check(&P10), 0);
    assert_eq!(calls::check(&changed(&P10, &[(6, 1)])), 8);
    assert_eq!(calls::check(&changed(&P10, &[(10, 0)])), 8);
}

/// Each check is over all transactions before the next check is over any.
#[test]
fn rows_5_to_8_over_the_whole_sheet() {
    let late_5 = (9, 7);
    let (early_6, late_6) = ((7, 0), (11, 0));
    let early_7 = (14, 1);
    let (early_8, late_7) = ((6, 1), (15, 3));
    for (changes, number) in [
        ([early_6, late_5], 5),
        ([early_7, late_5], 5),
        ([early_7, late_6], 6),
        ([early_8, late_6], 6),
        ([early_8, late_7], 7),
    ] {
        assert_eq!(calls::check(&changed(&P10, &changes)), number);
    }
}

#[test]
fn rows_9_and_10() {
    let saswap = sheet::saswap(3);
    let number = |sheet: &[u8], setup: &[u8]| calls::run(sheet, setup, &[1]).refusal;
    assert_eq!(number(&ONE, &[0, 0, 0, 0]), 9);
    for setup in [&[][..], &[3, 0, 0], &[3, 0, 0, 0, 0], &[233, 3, 0, 0]] {
        assert_eq!(number(&saswap, setup), 9);
    }
    // 9 stands before 10, and a setup that passes comes to 24.
    assert_eq!(number(&saswap, &[0, 0, 3, 2]), 9);
    assert_eq!(number(&saswap, &[232, 3, 2, 1]), 24);
    assert_eq!(number(&saswap, &[3, 0, 3, 0]), 10);
    assert_eq!(number(&saswap, &[3, 0, 0, 2]), 10);
    for conduct in [1, 2] {
        assert_eq!(number(&ONE, &[3, 0, conduct, 0]), 10);
        assert_eq!(number(&saswap, &[2, 0, conduct, 0]), 10);
        assert_eq!(number(&sheet::saswap(2), &[2, 0, conduct, 0]), 24);
        assert_eq!(number(&saswap, &[4, 0, conduct, 0]), 24);
        let veiled = changed(&saswap, &[(8, 1)]);
        assert_eq!(calls::check(&veiled), 0);
        assert_eq!(number(&veiled, &[3, 0, conduct, 0]), 10);
    }
    // The sheet stands before the setup.
    assert_eq!(number(&[], &[0, 0, 0, 0]), 1);
}

/// Steps with a field out of range for their kind, under open conduct.
const OUT_OF_RANGE: [[u8; 4]; 25] = [
    [0, 0, 0, 0],
    [8, 0, 0, 2],
    [255, 2, 255, 2],
    [3, 2, 0, 2],   // the miner sends
    [5, 0, 0, 2],   // Alice includes
    [6, 1, 255, 2], // Bob mines
    [3, 0, 15, 2],  // no such transaction
    [3, 0, 255, 2], // 255 for a send
    [1, 0, 255, 2], // 255 for a share under open conduct
    [7, 2, 255, 2], // 255 for a bump
    [6, 2, 0, 2],   // a transaction for kind 6
    [2, 0, 4, 1],   // no such signature
    [2, 0, 0, 0],   // a gift to oneself
    [2, 0, 0, 2],   // a gift to nobody
    [3, 0, 0, 0],   // a contract transaction to a party
    [3, 0, 7, 1],   // a paying one to the other party
    [3, 0, 7, 2],   // a paying one to the contract
    [3, 0, 9, 0],   // the sender is no payee
    [4, 0, 9, 0],   // likewise
    [1, 1, 9, 0],   // a share names no payee
    [1, 1, 9, 2],   // likewise
    [1, 0, 0, 3],   // no such destination
    [5, 2, 7, 0],   // kinds 5, 6, 7 have destination 2
    [6, 2, 255, 0], // likewise
    [7, 2, 7, 1],   // likewise
];

#[test]
fn row_11() {
    let game = Game::saswap(3, 0, 1);
    for step in OUT_OF_RANGE {
        assert_eq!(game.next(step), 11, "{step:?}");
    }
    // A sharer need not be a payee.
    assert_eq!(game.next([1, 0, 10, 1]), 0);
    for conduct in [1, 2] {
        let game = Game::saswap(3, conduct, 1);
        assert_eq!(game.next([1, 0, 255, 2]), 0);
        assert_eq!(game.next([1, 0, 255, 0]), 11);
        assert_eq!(game.next([2, 0, 255, 1]), 11);
        assert_eq!(game.next([3, 0, 255, 2]), 11);
    }
}

#[test]
fn row_12() {
    assert_eq!(Game::saswap(3, 0, 0).next([4, 0, 0, 2]), 12);
    assert_eq!(Game::saswap(3, 0, 1).next([4, 0, 0, 2]), 0);
    // After 11, before 13.
    assert_eq!(Game::saswap(3, 0, 0).next([4, 0, 0, 1]), 11);
    assert_eq!(Game::saswap(3, 2, 0).next([4, 0, 0, 2]), 12);
    assert_eq!(Game::saswap(3, 2, 1).next([4, 0, 0, 2]), 13);
}

#[test]
fn row_13() {
    assert_eq!(Game::saswap(3, 2, 0).next([3, 0, 0, 2]), 13);
    let game = Game::saswap(3, 0, 0);
    // Shares: an empty set; the same again; another destination.
    assert_eq!(game.next([1, 0, 1, 2]), 13);
    assert_eq!(game.next([1, 1, 8, 0]), 13); // secrets only
    let shared = game.clone().after(&[[1, 0, 7, 0]]);
    assert_eq!(shared.next([1, 0, 7, 0]), 13);
    assert_eq!(shared.next([1, 0, 7, 1]), 0);
    assert_eq!(shared.next([1, 1, 7, 0]), 0);
    // A new key does not make an old share new.
    let shared = shared.after(&[[2, 1, 1, 0]]);
    assert_eq!(shared.next([1, 0, 7, 0]), 13);
    // Gifts: not held; held by the receiver.
    assert_eq!(game.next([2, 0, 1, 1]), 13);
    assert_eq!(game.after(&[GIVE_SIG_ALICE]).next(GIVE_SIG_ALICE), 13);
}

#[test]
fn row_14() {
    let sent = Game::saswap(3, 0, 1).after(&[[3, 0, 0, 2]]);
    assert_eq!(sent.next([3, 0, 0, 2]), 14);
    // A hand-in looks at the block, not at the pool; a pool send the other way.
    let both = sent.after(&[[4, 0, 0, 2]]);
    assert_eq!(both.next([4, 0, 0, 2]), 14);
    assert_eq!(both.next([5, 2, 0, 2]), 14);
    let handed = Game::saswap(3, 0, 1).after(&[[4, 0, 0, 2]]);
    assert_eq!(handed.next([3, 0, 0, 2]), 0);
    let mined = handed.after(&[MINE]);
    for step in [[3, 0, 0, 2], [4, 0, 0, 2], [5, 2, 0, 2]] {
        assert_eq!(mined.next(step), 14);
    }
    // Two openings are no rivals; two spends are.
    assert_eq!(mined.next([3, 1, 1, 2]), 0);
    let waiting = mined.after(&[GIVE_SIG_ALICE, [3, 1, 2, 2]]);
    assert_eq!(waiting.next([3, 1, 7, 1]), 14);
    assert_eq!(waiting.next([4, 1, 7, 1]), 0);
}

#[test]
fn row_15() {
    let game = Game::saswap(3, 0, 1);
    assert_eq!(game.next([3, 0, 4, 2]), 15);
    assert_eq!(game.next([4, 0, 4, 2]), 15);
    assert_eq!(game.next([5, 2, 4, 2]), 15);
    // In pool it is there for a pool send, in the block for a hand-in.
    let pool = game.clone().after(&[[3, 0, 0, 2]]);
    assert_eq!(pool.next([3, 0, 4, 2]), 17);
    assert_eq!(pool.next([4, 0, 4, 2]), 15);
    let block = game.after(&[[4, 0, 0, 2]]);
    assert_eq!(block.next([3, 0, 4, 2]), 15);
    assert_eq!(block.next([4, 0, 4, 2]), 17);
    // An included child needs the parent in the block.
    let children = pool.after(&[GIVE_SIG_ALICE, [3, 1, 2, 2]]);
    assert_eq!(children.next([5, 2, 2, 2]), 15);
    assert_eq!(children.after(&[[5, 2, 0, 2]]).next([5, 2, 2, 2]), 0);
}

#[test]
fn row_16() {
    let game = Game::saswap(3, 0, 1).after(&LOCK_A);
    assert_eq!(game.next([3, 0, 2, 2]), 16);
    assert_eq!(game.next([4, 0, 2, 2]), 16);
    // A share serves its own transaction and destination only.
    let shared = game.clone().after(&[[1, 1, 7, 1]]);
    assert_eq!(shared.next([3, 0, 7, 0]), 16);
    let shared = game.after(&[[1, 1, 7, 0]]);
    assert_eq!(shared.next([3, 0, 7, 0]), 0);
    // A shared secret serves every transaction, a shared signature does not.
    let sent = shared.after(&[GIVE_SIG_ALICE, [3, 1, 2, 2]]).after(&LOCK_B);
    assert_eq!(sent.next([3, 0, 8, 0]), 0);
    assert_eq!(sent.next([3, 1, 8, 1]), 16);
}

#[test]
fn row_17() {
    let game = Game::saswap(3, 0, 0).after(&LOCK_A);
    let game = game.after(&[GIVE_SIG_ALICE]);
    assert_eq!(game.clone().at_blocks(5).next([3, 1, 4, 2]), 17);
    assert_eq!(game.at_blocks(6).next([3, 1, 4, 2]), 0);
    // 17 stands before 16: Bob lacks a signature too.
    let game = Game::saswap(3, 0, 1).after(&LOCK_A);
    for kind in [3, 4] {
        assert_eq!(game.clone().at_blocks(5).next([kind, 1, 4, 2]), 17);
        assert_eq!(game.clone().at_blocks(6).next([kind, 1, 4, 2]), 16);
    }
}

#[test]
fn row_18() {
    let game = Game::saswap(3, 0, 1).after(&LOCK_A);
    let game = game.after(&[GIVE_SIG_ALICE]);
    assert_eq!(game.clone().at_blocks(3).next([3, 1, 2, 2]), 18);
    assert_eq!(game.clone().at_blocks(2).next([3, 1, 2, 2]), 0);
    assert_eq!(game.at_blocks(4).next([4, 1, 2, 2]), 0);
}

#[test]
fn rows_19_to_22() {
    let fresh = Game::saswap(3, 0, 1);
    assert_eq!(fresh.next([5, 2, 0, 2]), 19);
    assert_eq!(fresh.next([7, 2, 0, 2]), 21);
    assert_eq!(fresh.next(MINE), 22);
    assert_eq!(fresh.clone().after(&LOCK_B).next(MINE), 22);
    assert_eq!(fresh.after(&LOCK_A).next(MINE), 0);
    // Success and lock_B wait at 2 blocks.
    let game = p6_game().after(&[[3, 1, 1, 2], [3, 1, 2, 2]]);
    assert_eq!(game.next([7, 2, 2, 2]), 21);
    assert_eq!(game.next([5, 2, 1, 2]), 0);
    let game = game.after(&[MINE]);
    assert_eq!(game.position().mined, 2);
    assert_eq!(game.next([5, 2, 1, 2]), 20);
    assert_eq!(game.next([5, 2, 2, 2]), 20);
    assert_eq!(game.next(MINE), 20);
    assert_eq!(game.next([7, 2, 1, 2]), 21);
    assert_eq!(game.next([5, 2, 0, 2]), 14);
    assert_eq!(game.next([5, 2, 9, 2]), 15);
    assert_eq!(game.next([5, 2, 7, 2]), 19);
    let game = game.after(&[[7, 2, 2, 2]]);
    assert_eq!(game.next([7, 2, 2, 2]), 21);
    assert_eq!(game.next([5, 2, 1, 2]), 0);
    assert_eq!(game.next(MINE), 0);
}

#[test]
fn row_23() {
    let game = Game::saswap(3, 0, 0).after(&LOCK_A);
    let last = game.at_blocks(9_999);
    assert_eq!(last.next(MINE), 0);
    let full = last.at_blocks(10_000);
    assert_eq!(full.next(MINE), 23);
    let full = full.after(&[[3, 1, 1, 2], [5, 2, 1, 2]]);
    assert_eq!(full.next(MINE), 23);
}

#[test]
fn row_24() {
    let saswap = sheet::saswap(3);
    let setup = [3, 0, 0, 0];
    for journal in [vec![0; 3], vec![0; 65_540], vec![0; 65_537]] {
        let run = calls::run(&saswap, &setup, &journal);
        assert_eq!((run.refusal, run.accepted), (24, 0));
        assert_eq!(run.rest, &journal[..]);
        assert_eq!(calls::run(&saswap, &[3, 0, 3, 0], &journal).refusal, 10);
    }
    // Before any step, whatever the steps are.
    let journal = [&LOCK_A.concat()[..], &[0]].concat();
    let run = calls::run(&saswap, &setup, &journal);
    assert_eq!((run.refusal, run.accepted, run.rest.len()), (24, 0, 13));
    assert_eq!(calls::run(&saswap, &setup, &[0; 65_536]).refusal, 11);
}

#[test]
fn row_25() {
    let game = p6_game();
    let (sheet, setup, journal) = (&game.sheet, &game.setup, &game.journal);
    let steps = calls::open_steps(sheet, setup, journal).unwrap();
    assert!(steps.len() > 5);
    for (needed, is_list) in [(report::ROW * 15, false), (4 * steps.len(), true)] {
        let answer = |length: usize| {
            let mut output = vec![170; length];
            let number = match is_list {
                true => calls::list_number(sheet, setup, journal, &mut output),
                false => calls::report_number(sheet, setup, journal, &mut output),
            };
            (number, output)
        };
        assert_eq!(answer(needed - 1), (25 * 65_536, vec![170; needed - 1]));
        assert_eq!(answer(0), (25 * 65_536, vec![]));
        let count = if is_list { steps.len() as u32 } else { 0 };
        let (number, exact) = answer(needed);
        assert_eq!(number, count);
        let (number, longer) = answer(needed + 7);
        assert_eq!(number, count);
        assert_eq!(longer, [&exact[..], &[170; 7]].concat());
    }
    // The journal's refusal stands before 25.
    let refused = [&journal[..], &[0; 4]].concat();
    assert_eq!(
        calls::report_number(sheet, setup, &refused, &mut []),
        11 * 65_536
    );
    assert_eq!(
        calls::list_number(sheet, setup, &refused, &mut []),
        11 * 65_536
    );
}

/// An empty list needs no buffer.
#[test]
fn empty_list() {
    let sheet = [1, 1, 1, 0, 0, 255, 1, 1, 0, 0, 0];
    let list = calls::list(&sheet, &[1, 0, 0, 0], &[], &mut []);
    assert_eq!((list.refusal, list.written), (0, 0));
}

/// List or report with C's number, the buffer filled before the call.
fn written(case: &Case, is_list: bool, before: &[u8]) -> (u32, Vec<u8>) {
    let (sheet, setup, journal) = case;
    let mut output = before.to_vec();
    let number = match is_list {
        true => calls::list_number(sheet, setup, journal, &mut output),
        false => calls::report_number(sheet, setup, journal, &mut output),
    };
    (number, output)
}

/// The bytes that list or report has to write after an accepted journal.
fn to_write(case: &Case, is_list: bool) -> Vec<u8> {
    let (sheet, setup, journal) = case;
    match is_list {
        true => calls::open_steps(sheet, setup, journal).unwrap().concat(),
        false => calls::report_bytes(sheet, setup, journal).unwrap(),
    }
}

#[test]
fn calls_and_buffers_on_random_cases() {
    let mut random = Random::new(13);
    let (mut whole, mut short, mut refused) = (0, 0, 0);
    for round in 0..4_000 {
        let is_list = round % 2 == 0;
        let case = random::case(&mut random, 40);
        let run = calls::run(&case.0, &case.1, &case.2);
        let number = calls::run_number(&case.0, &case.1, &case.2);
        assert_eq!(number, run.refusal * 65_536 + run.accepted as u32);
        let length = random.below(500);
        let before = random.bytes(length);
        let (number, output) = written(&case, is_list, &before);
        if run.refusal != 0 {
            assert_eq!((number, output), (run.refusal * 65_536, before));
            refused += 1;
            continue;
        }
        let bytes = to_write(&case, is_list);
        if bytes.len() > length {
            assert_eq!((number, output), (25 * 65_536, before));
            short += 1;
        } else {
            let count = if is_list { bytes.len() as u32 / 4 } else { 0 };
            assert_eq!(number, count);
            assert_eq!(output, [&bytes[..], &before[bytes.len()..]].concat());
            whole += 1;
        }
    }
    assert!(whole > 200 && short > 200 && refused > 200);
}
