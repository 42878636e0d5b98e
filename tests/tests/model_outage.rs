//! The model of an outage: worked positions, and what the soonest blocks and deadlines claim, on random walks.

use std::collections::BTreeSet;
use swap_tests::compare::Game;
use swap_tests::model::calls;
use swap_tests::model::heights::{self, NEVER};
use swap_tests::model::journal::Course;
use swap_tests::model::{outage, sheet};
use swap_tests::random::{self, Manner, Random, MINE};
use swap_tests::samples::{FIRST_SHARES, LOCK_A, LOCK_B};

const SUCCESS: usize = 2;
const REFUND_2: usize = 5;
const TIMEOUT: usize = 6;
const SPEND_TIMEOUT: usize = 14;

/// The rows of a careful swap: verdict, payees, soonest block, soonest deadline.
fn rows(setup: [u8; 4], steps: &[[u8; 4]], blocks: u32) -> Vec<(u8, u8, u32, u32)> {
    let sheet = sheet::saswap(u16::from_le_bytes([setup[0], setup[1]]));
    let bytes = calls::outage_bytes(&sheet, &setup, &steps.concat(), blocks).expect("accepted");
    let number = |at: &[u8]| u32::from_le_bytes([at[0], at[1], at[2], at[3]]);
    let rows = bytes.chunks_exact(outage::ROW);
    rows.map(|row| (row[0], row[1], number(&row[2..6]), number(&row[6..10])))
        .collect()
}

/// Both coins are locked, and so many blocks mined.
fn both_locked(blocks: usize) -> Vec<[u8; 4]> {
    let mined = vec![MINE; blocks - 2];
    [&FIRST_SHARES[..], &LOCK_A, &LOCK_B, &mined].concat()
}

/// 144 blocks a day, careful, both coins locked, 288 blocks mined: refund_2 must be confirmed in block 577 at the
/// latest, since revoke fits in block 289 and timeout in block 578. Two days of outage leave that, a block more not.
#[test]
fn revoke_to_come() {
    let at = |blocks| rows([144, 0, 2, 0], &both_locked(288), blocks);
    assert_eq!(at(288)[REFUND_2], (0, 1, 434, 577));
    assert_eq!(at(289)[REFUND_2], (4, 1, 434, 577));
    assert_eq!(at(300)[REFUND_2], (4, 1, 434, 577));
    assert_eq!(at(300)[TIMEOUT], (0, 2, 578, NEVER));
    assert_eq!(at(300)[SPEND_TIMEOUT], (0, 2, 578, NEVER));
    assert_eq!(at(0)[SUCCESS], (8, 2, 289, 144));
    let stealth = |blocks| rows([144, 0, 2, 1], &both_locked(288), blocks);
    assert_eq!(stealth(0)[SUCCESS], (12, 2, 289, 144));
}

/// The most blocks: no sum overflows, and 2147483647 is a number like others.
#[test]
fn most_blocks() {
    let at = |blocks| rows([144, 0, 2, 0], &both_locked(288), blocks)[TIMEOUT].0;
    let far = NEVER - 288;
    assert_eq!([0, far - 1, far, u32::MAX].map(at), [0, 0, 4, 4]);
}

/// In the pool with a confirmed parent, and confirmed; what is dead has no soonest block, and still its deadline, 13: the
/// parent, revoke, could by its lock be in block 7.
#[test]
fn pool_and_dead() {
    let send = [[1, 0, 2, 2], [3, 1, 2, 2]];
    let sent = [&both_locked(2)[..], &send].concat();
    assert_eq!(rows([3, 0, 2, 0], &sent, 9)[SUCCESS], (2, 2, 3, 3));
    let mined = [&sent[..], &[[7, 2, 2, 2], MINE]].concat();
    let rows = rows([3, 0, 2, 0], &mined, 9);
    assert_eq!(rows[SUCCESS], (1, 2, 3, 3));
    assert_eq!(rows[REFUND_2], (1, 1, NEVER, 13));
}

/// The soonest blocks and deadlines, and the report's deadlines.
fn heights(game: &Game, course: &Course) -> Vec<[u32; 3]> {
    let (sheet, setup, position) = (&game.sheet, &game.setup, &course.position);
    let each = |t: u8| {
        [
            outage::soonest_block(sheet, setup, position, t),
            outage::soonest_deadline(sheet, setup, position, t),
            heights::deadline(sheet, setup, position, t),
        ]
    };
    (0..sheet.count()).map(each).collect()
}

/// The trial's claims 1 and 2 on random walks: "no step lets a soonest block or a soonest deadline fall, and none lets
/// the report's deadline rise; the soonest deadline is at most the deadline"; "a rival of t that is confirmed later,
/// with a lock height above t's there, has a block of at least the soonest deadline of t now, plus 1".
#[test]
fn sandwich_and_no_surprise() {
    let mut random = Random::new(20);
    let (mut steps, mut surprises) = (0, 0);
    for _ in 0..3_000 {
        let game = Game::new(random::game(&mut random));
        let manner = Manner {
            wrong: 0,
            leap: 10,
            ..random::manner(&mut random, 60)
        };
        let (sheet, setup, _) = game.case(&[]);
        let journal = random::journal(&mut random, &sheet, &setup, manner);
        let mut course = Course::fresh(&game.sheet);
        let mut soonest: Vec<Vec<[u32; 3]>> = vec![heights(&game, &course)];
        for step in journal.chunks_exact(4) {
            let confirmed: BTreeSet<u8> = course.position.confirmed.keys().copied().collect();
            let step = [step[0], step[1], step[2], step[3]];
            if course.take(&game.sheet, &game.setup, &step) != 0 {
                break;
            }
            let now = heights(&game, &course);
            for (after, before) in now.iter().zip(soonest.last().expect("some")) {
                assert!(after[0] >= before[0] && after[1] >= before[1]);
                assert!(after[2] <= before[2] && after[1] <= after[2]);
            }
            surprises += later_rivals(&game, &course, &confirmed, &soonest);
            soonest.push(now);
            steps += 1;
        }
    }
    println!("{steps} steps, {surprises} rivals locked later that were confirmed");
    assert!(steps > 50_000 && surprises > 1_000);
}

/// The rivals with a later lock that the last step confirmed, each in a block above every soonest deadline so far.
fn later_rivals(
    game: &Game,
    course: &Course,
    before: &BTreeSet<u8>,
    soonest: &[Vec<[u32; 3]>],
) -> usize {
    let (sheet, setup, position) = (&game.sheet, &game.setup, &course.position);
    let lock = |t: u8| heights::lock_height(sheet, setup, position, t);
    let mut found = 0;
    for (&r, confirmation) in &position.confirmed {
        let new = !before.contains(&r);
        let later = sheet
            .rivals(r)
            .iter()
            .filter(|&&t| new && lock(r) > lock(t));
        for &t in later {
            let highest = soonest.iter().map(|rows| rows[usize::from(t)][1]).max();
            assert!(confirmation.block > highest.expect("some"));
            found += 1;
        }
    }
    found
}
