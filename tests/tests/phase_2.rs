//! Slip 6: in phase 2 Alice sends as in phase 3. Which answers the slip changes, and that it changes no others.

use std::collections::BTreeMap;
use swap_tests::compare::Game;
use swap_tests::engine;
use swap_tests::model::journal::{self, Course};
use swap_tests::model::setup::Conduct;
use swap_tests::model::slips::Slips;
use swap_tests::model::{calls, report, ALICE, BOB};
use swap_tests::older::{self, Answer};
use swap_tests::random::{Random, MINE};
use swap_tests::samples::{FIRST_SHARES, LOCK_A};

/// The rules with "Phase 2: Alice waits."
const WAITS: Slips = Slips {
    alice_sends_in_phase_2: false,
    ..Slips::ALL
};

/// "2: lock_A confirmed", lock_B not: by the entries of the mined blocks.
fn in_phase_2(course: &Course) -> bool {
    let confirmed = |t: u8| course.entries.iter().any(|entry| entry.transaction == t);
    confirmed(0) && !confirmed(1)
}

/// "To send means kind 3 or 4."
fn is_alices_send(step: &[u8; 4]) -> bool {
    matches!(step, [3 | 4, ALICE, _, _])
}

/// What was seen.
#[derive(Debug, Default)]
struct Seen {
    positions: usize,
    in_phase_2: usize,
    answers: usize,
    /// The changed answers by their number now.
    changed: BTreeMap<u32, usize>,
    /// Alice's sends in phase 2 that get 13 by paying first.
    paying_first: usize,
}

impl Seen {
    /// All answers in one position.
    fn look(&mut self, game: &Game, course: &Course) {
        let answers = older::answers(game, &course.position, WAITS);
        let phase_2 = in_phase_2(course);
        self.positions += 1;
        self.in_phase_2 += usize::from(phase_2);
        self.answers += answers.len();
        for answer in &answers {
            if answer.older != answer.now {
                assert!(game.setup.conduct != Conduct::Open, "{answer:?}");
                assert!(phase_2 && is_alices_send(&answer.step), "{answer:?}");
                assert_eq!(answer.older, 13, "{answer:?}");
                assert_library(game, course, answer);
                *self.changed.entry(answer.now).or_default() += 1;
            } else if phase_2 && is_alices_send(&answer.step) && answer.now == 13 {
                assert!(pays_first(game, answer, &answers), "{answer:?}");
                self.paying_first += 1;
            }
        }
        if phase_2 && game.setup.conduct != Conduct::Open {
            assert_nothing_out(course);
        }
    }
}

/// The library gives the answer of now.
fn assert_library(game: &Game, course: &Course, answer: &Answer) {
    let steps = [&course.accepted[..], &[answer.step]].concat();
    let (sheet, setup, journal) = game.case(&steps);
    let accepted = course.accepted.len() + usize::from(answer.now == 0);
    let number = engine::run(&sheet, &setup, &journal);
    assert_eq!(number, calls::number(answer.now, accepted), "{answer:?}");
}

/// Careful conduct, a contract transaction, and a paying one that Alice could send.
fn pays_first(game: &Game, answer: &Answer, answers: &[Answer]) -> bool {
    let could_pay = |other: &Answer| {
        is_alices_send(&other.step) && other.now == 0 && !game.sheet.is_contract(other.step[2])
    };
    game.setup.conduct == Conduct::Careful
        && game.sheet.is_contract(answer.step[2])
        && answers.iter().any(could_pay)
}

/// In phase 2 success (2) has no shared entry and Alice doesn't hold secretBob (3).
fn assert_nothing_out(course: &Course) {
    let position = &course.position;
    let shared = position.shared.keys().any(|&(t, _)| t == 2);
    let accepted = &course.accepted;
    assert!(!shared && !position.holds(ALICE, 3), "{accepted:?}");
}

/// Walks over the SASwap sheet under one conduct, with both stealths.
fn walks(conduct: u8, rounds: u64) -> Seen {
    let mut seen = Seen::default();
    for blocks_per_day in [1, 2, 3, 4, 7] {
        for stealth in [0, 1] {
            let game = Game::saswap(blocks_per_day, conduct, stealth);
            for seed in 0..rounds {
                let mut random = Random::new(seed);
                for course in older::walk(&mut random, &game, 40) {
                    seen.look(&game, &course);
                }
            }
        }
    }
    println!("conduct {conduct}: {seen:?}");
    seen
}

/// 0 and 14 to 18 are what a send can get past conduct.
fn assert_changed(seen: &Seen) {
    let numbers: Vec<u32> = seen.changed.keys().copied().collect();
    assert_eq!(numbers, [0, 14, 15, 16, 17, 18]);
    assert!(seen.changed.values().sum::<usize>() > 20_000);
    assert!(seen.in_phase_2 > 1_000);
}

#[test]
fn loose_answers() {
    let seen = walks(1, 30);
    assert_changed(&seen);
    assert_eq!(seen.paying_first, 0);
}

#[test]
fn careful_answers() {
    let seen = walks(2, 30);
    assert_changed(&seen);
    assert!(seen.paying_first > 100);
}

#[test]
fn open_answers() {
    let seen = walks(0, 10);
    assert!(seen.changed.is_empty() && seen.answers > 100_000);
}

/// Which of Alice's transactions, to whom, and after how many blocks.
type Plan = [(u8, u8, usize)];

/// Alice's steps by a plan: each transaction to the pool and into the next block, or with stealth handed in. At 1 block
/// per day the bump of refund_1 (3) and of refund_2 (5) is owed at once.
fn steps_of(plan: &Plan, blocks_per_day: usize, stealth: u8) -> Vec<[u8; 4]> {
    let mut steps = Vec::new();
    for &(t, destination, blocks) in plan {
        steps.extend(vec![MINE; blocks]);
        let enters = match blocks_per_day {
            1 if t == 3 || t == 5 => 7,
            _ => 5,
        };
        match stealth {
            0 => steps.extend([[3, ALICE, t, destination], [enters, 2, t, 2], MINE]),
            _ => steps.extend([[4, ALICE, t, destination], MINE]),
        }
    }
    steps
}

/// The lock height of so many days after the offset: "Offset is 3 less the blocks per day, never below zero."
fn height(blocks_per_day: usize, days: usize) -> usize {
    (3usize.saturating_sub(blocks_per_day) + days) * blocks_per_day
}

/// Bob never locks, and after the first shares takes no step: Alice gets coin A back, by refund_1 (3) and
/// spend_refund_1_alice (11) a day later, or by revoke (4), refund_2 (5) a day later and spend_refund_2 (13). While she
/// waited, her first send got 13.
#[test]
fn alice_refunds() {
    for day in [1, 2, 3, 4, 7, 144, 1000] {
        let by_refund_1 = [(3, 2, height(day, 1) - 1), (11, 0, day)];
        let by_refund_2 = [(4, 2, height(day, 2) - 1), (5, 2, day), (13, 0, 0)];
        for (conduct, stealth) in [(1, 0), (1, 1), (2, 0), (2, 1)] {
            let game = Game::saswap(day as u16, conduct, stealth);
            for plan in [&by_refund_1[..], &by_refund_2] {
                let first = 5 + plan[0].2;
                let refund = steps_of(plan, day, stealth);
                let steps = [&FIRST_SHARES[..], &LOCK_A, &refund].concat();
                assert_refunded(&game, &steps, first);
            }
        }
    }
}

/// After these steps Alice holds coin A, by the model and in the library's report; with the older rule her step with this
/// number is the first that is refused.
fn assert_refunded(game: &Game, steps: &[[u8; 4]], first: usize) {
    assert!(steps[2..].iter().all(|step| step[1] != BOB));
    let (number, course) = journal::run(&game.sheet, &game.setup, steps);
    assert_eq!((number, course.accepted.len()), (0, steps.len()));
    let holders = report::holders_from_position(&game.sheet, &course.position);
    assert_eq!(holders[&0], Some(ALICE));
    let (sheet, setup, journal) = game.case(steps);
    let mut rows = [0; report::ROW * 15];
    assert_eq!(engine::report(&sheet, &setup, &journal, &mut rows), 0);
    let holders = report::holders_from_report(&game.sheet, &rows);
    assert_eq!(holders[&0], Some(ALICE));
    assert!(is_alices_send(&steps[first]));
    let (number, course) = journal::run(&game.sheet, &older::by(game, WAITS), steps);
    assert_eq!((number, course.accepted.len()), (13, first));
}
