//! What the benchmark runs: sheets, setups and journals whose steps are all accepted.

use swap_tests::compare::Game;
use swap_tests::random::{Case, MINE};
use swap_tests::samples::{FIRST_SHARES, LOCK_A, LOCK_B};

/// After both locks: success shared by Alice, sent by Bob and bumped at its deadline, then both payouts.
const SWAP: [[u8; 4]; 10] = [
    [1, 0, 2, 2],
    [3, 1, 2, 2],
    [7, 2, 2, 2],
    MINE,
    [3, 1, 9, 1],
    [5, 2, 9, 2],
    MINE,
    [3, 0, 8, 0],
    [5, 2, 8, 2],
    MINE,
];

/// The SASwap sheet at 3 blocks per day with an empty journal.
pub fn fresh(conduct: u8) -> Case {
    Game::saswap(3, conduct, 1).case(&[])
}

/// One swap on the SASwap sheet, and empty blocks up to so many steps.
pub fn swap(conduct: u8, steps: usize) -> Case {
    let first_shares = match conduct {
        0 => &[],
        _ => &FIRST_SHARES[..],
    };
    let mut journal = [first_shares, &LOCK_A, &LOCK_B, &SWAP].concat();
    journal.resize(steps.max(journal.len()), MINE);
    Game::saswap(3, conduct, 1).case(&journal)
}

/// 32 openings that pay either party and need a signature that both hold: after no step, the most open steps.
pub fn openings() -> Case {
    let sheet = sheet(255, 1, vec![([255, 3, 1, 0], [0, 0]); 32]);
    (sheet, vec![1, 0, 0, 1], vec![])
}

/// The bytes of a sheet with 8 signatures, no secrets, and these masks and rows.
fn sheet(alice: u8, bob: u8, rows: Vec<([u8; 4], [u8; 2])>) -> Vec<u8> {
    let mut bytes = vec![rows.len() as u8, 8, 0, alice, bob];
    bytes.extend(rows.iter().flat_map(|(first, _)| first));
    bytes.extend(rows.iter().flat_map(|(_, second)| second));
    bytes
}

/// Every give and share that Alice and Bob can make while Alice holds all signatures and each paying transaction, from
/// this number on, pays either party.
fn gives_and_shares(count: u8, paying: u8) -> Vec<[u8; 4]> {
    let gives = (0..8).map(|i| [2, 0, i, 1]);
    let shares = (0..count).flat_map(move |t| {
        let destinations = if t < paying { 2..=2 } else { 0..=1 };
        destinations.flat_map(move |to| [[1, 0, t, to], [1, 1, t, to]])
    });
    gives.chain(shares).collect()
}

/// So many transactions in a row, each the parent of the next, and a journal of so many steps: all gives and shares, then
/// all transactions sent to the pool, then each mined in a block of its own, in turn included from the pool and handed to
/// the miner. Before each of these blocks but the first some empty ones are mined while the rest of the chain waits in the
/// pool, as many as the steps leave room for.
///
/// Without empty blocks 32 transactions make 170 steps, and no journal of this sheet has more: beside the blocks there are
/// 8 gives, 66 shares, and of each transaction one send to the pool and one entry into a block, since it stays in the pool
/// until it is mined. With 10,000 blocks these are 10,138 steps.
pub fn chain(count: u8, steps: usize) -> Case {
    let row = |t: u8| match t {
        0 => [255, 0, 1, 0],
        t => [t - 1, if t + 1 == count { 3 } else { 0 }, 1, 0],
    };
    let rows = (0..count).map(|t| (row(t), [0, 0])).collect();
    let to = |t: u8| if t + 1 == count { 0 } else { 2 };
    let mut journal = gives_and_shares(count, count - 1);
    journal.extend((0..count).map(|t| [3, 0, t, to(t)]));
    let enter = |t: u8| match t % 2 {
        0 => [5, 2, t, 2],
        _ => [4, 0, t, to(t)],
    };
    let busy = journal.len() + 2 * usize::from(count);
    let mut idle = steps.saturating_sub(busy);
    journal.extend([enter(0), MINE]);
    for t in 1..count {
        let blocks = idle / usize::from(count - t);
        idle -= blocks;
        journal.extend(vec![MINE; blocks]);
        journal.extend([enter(t), MINE]);
    }
    (sheet(255, 0, rows), vec![1, 0, 0, 1], journal.concat())
}

/// An opening whose children are rivals, and a journal of so many steps: the first child waits in the pool, empty blocks
/// are mined, and the deadlines lie beyond the last block.
pub fn rivals(count: u8, steps: usize) -> Case {
    let row = |t: u8| match t {
        0 => ([255, 0, 1, 0], [0, 0]),
        1 => ([0, 3, 1, 0], [0, 0]),
        t => ([0, 3, 1, 0], [1, 9 + t]),
    };
    let rows = (0..count).map(row).collect();
    let mut journal = gives_and_shares(count, 1);
    journal.extend([[3, 0, 0, 2], [5, 2, 0, 2], MINE, [3, 0, 1, 0]]);
    journal.resize(steps, MINE);
    (sheet(255, 0, rows), vec![232, 3, 0, 1], journal.concat())
}
