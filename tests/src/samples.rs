//! The sample swaps of `examples/calendar/samples`. The example `calendar` writes them; the test `calendar` holds the
//! stored files to them.

use crate::model::sheet;
use crate::random::MINE;
use std::fs;
use std::path::Path;

/// The names of a swap's files; the last two need not be there.
pub const FILES: [&str; 5] = ["sheet.bin", "setup.bin", "journal.bin", "side", "base"];

/// The bytes of a swap's files, in that order; None for one that is missing.
pub type Files = [Option<Vec<u8>>; 5];

/// Writes a swap's files to its folder, which is made.
pub fn write(folder: &Path, files: &Files) -> std::io::Result<()> {
    fs::create_dir_all(folder)?;
    for (name, bytes) in FILES.iter().zip(files) {
        if let Some(bytes) = bytes {
            fs::write(folder.join(name), bytes)?;
        }
    }
    Ok(())
}

/// Reads a swap's files from its folder.
pub fn read(folder: &Path) -> Files {
    FILES.map(|name| fs::read(folder.join(name)).ok())
}

/// A swap's folder below `samples`, and its files.
pub type Sample = (String, Files);

type Steps = Vec<[u8; 4]>;

/// The sheet of P10.
pub const P10: [u8; 17] = [2, 2, 0, 1, 2, 255, 0, 1, 0, 0, 2, 2, 0, 0, 0, 1, 1];
/// Both first shares.
pub const FIRST_SHARES: [[u8; 4]; 2] = [[1, 0, 255, 2], [1, 1, 255, 2]];
/// lock_A into a block of its own, and lock_B.
pub const LOCK_A: [[u8; 4]; 3] = [[3, 0, 0, 2], [5, 2, 0, 2], MINE];
pub const LOCK_B: [[u8; 4]; 3] = [[3, 1, 1, 2], [5, 2, 1, 2], MINE];

/// A transaction to the pool, included and mined; or with more blocks mined after it.
fn confirmed(party: u8, t: u8, destination: u8, blocks: usize) -> Steps {
    let mut steps = vec![[3, party, t, destination], [5, 2, t, 2]];
    steps.extend(vec![MINE; blocks]);
    steps
}

/// Both first shares, lock_A confirmed in block 1, lock_B in block 2, and so many blocks mined.
fn both_locked(blocks: usize) -> Steps {
    let lock_b = confirmed(1, 1, 2, blocks - 1);
    [&FIRST_SHARES[..], &LOCK_A, &lock_b].concat()
}

fn files(sheet: &[u8], setup: [u8; 4], steps: &[[u8; 4]]) -> Files {
    [
        Some(sheet.to_vec()),
        Some(setup.to_vec()),
        Some(steps.concat()),
        None,
        None,
    ]
}

/// The swap, with this in its file `side`.
fn with_side(mut files: Files, side: &str) -> Files {
    files[3] = Some(side.as_bytes().to_vec());
    files
}

/// The swap, with this in its file `base`.
pub fn with_base(mut files: Files, base: &str) -> Files {
    files[4] = Some(base.as_bytes().to_vec());
    files
}

/// The SASwap sheet with its setup: blocks per day below 256, conduct and stealth.
fn saswap(setup: [u8; 3], steps: &[[u8; 4]]) -> Files {
    let [blocks_per_day, conduct, stealth] = setup;
    let sheet = sheet::saswap(blocks_per_day.into());
    files(&sheet, [blocks_per_day, 0, conduct, stealth], steps)
}

/// Alice took refund_1, and Bob's spend_B waits in the pool: it could pay either, and pays him.
fn taken() -> Files {
    let refund_1 = confirmed(0, 3, 2, 1);
    saswap(
        [3, 2, 0],
        &[both_locked(3), refund_1, vec![[3, 1, 8, 1]]].concat(),
    )
}

/// Each has both secrets, and Bob's spend_B waits in the pool and pays him; with stealth Alice can hand in hers.
fn taken_stealth() -> Files {
    let spend_b = vec![[2, 1, 3, 0], [2, 0, 2, 1], [3, 1, 8, 1]];
    saswap([3, 0, 1], &[&LOCK_A[..], &LOCK_B, &spend_b].concat())
}

/// Nothing done yet.
fn fresh() -> Files {
    saswap([3, 2, 0], &[])
}

/// Both coins are locked, Alice has shared success, Bob has given secretBob, 100 blocks are mined.
fn locked() -> Files {
    let mut steps = both_locked(100);
    steps.extend([[1, 0, 2, 2], [2, 1, 3, 0]]);
    saswap([144, 2, 1], &steps)
}

/// Another sheet: P10's, after its first block.
fn numbers() -> Files {
    files(&P10, [1, 0, 0, 0], &LOCK_A)
}

/// A swap that succeeded: Bob has coin A by success, Alice coin B. Success is bumped into its last block.
fn paid() -> Files {
    let success = vec![[1, 0, 2, 2], [3, 1, 2, 2], [7, 2, 2, 2], MINE];
    let spends = vec![[3, 1, 9, 1], [3, 0, 8, 0], [5, 2, 8, 2], [5, 2, 9, 2], MINE];
    saswap([3, 2, 0], &[both_locked(2), success, spends].concat())
}

/// Success waits in the pool, with a bump owed.
fn pool() -> Files {
    let success = vec![[2, 0, 0, 1], [3, 1, 2, 2], MINE];
    saswap([3, 0, 0], &[&LOCK_A[..], &success].concat())
}

/// Alice took refund_1, Bob coin B with her secret.
fn refunded() -> Files {
    let refund_1 = confirmed(0, 3, 2, 1);
    let spend_b = confirmed(1, 8, 1, 1);
    saswap([3, 2, 1], &[both_locked(3), refund_1, spend_b].concat())
}

/// Bob revoked, and Alice has one day for refund_2. This is the swap that is embedded in the calendar.
pub fn revoked() -> Files {
    let revoke = confirmed(1, 4, 2, 145);
    saswap([144, 2, 0], &[both_locked(299), revoke].concat())
}

/// Both coins are locked and nothing else: revoke can be sent. The report has no deadline for refund_2 yet.
fn standing() -> Files {
    saswap([144, 2, 0], &both_locked(288))
}

/// Another sheet, where the confirmation of transaction 1 decides about deadlines: 2 to 6 spend it, with absolute locks
/// of 5 and 6 days, with one day since it, with none, and with two days since it.
const WAITING: [u8; 47] = [
    7, 2, 0, 1, 2, // sizes and masks
    255, 0, 1, 0, 0, 0, 1, 0, // the opening, and 1
    1, 1, 1, 0, 1, 2, 2, 0, 1, 3, 1, 0, 1, 3, 3, 0, 1, 1, 1, 0, // what spends it
    0, 0, 0, 0, 1, 5, 1, 6, 2, 1, 0, 0, 2, 2, // locks
];

/// The opening is confirmed, transaction 1 is not.
fn waiting() -> Files {
    files(&WAITING, [1, 0, 0, 0], &LOCK_A)
}

/// A ring of three coins: Alice's to Bob, Bob's to Carol, Carol's to Alice. Each coin is claimed with the payee's signature
/// and Alice's secret, or goes back to its owner: Carol's from 2 days on, Bob's from 3, Alice's from 4. So whoever sees the
/// secret has a day to claim. The signatures are 0 Alice's, 1 Bob's, 2 Carol's and 3 the secret.
pub const RING: [u8; 60] = [
    137, 4, 8, 9, 2, 4, // sizes and masks
    255, 0, 1, 0, 255, 0, 2, 0, 255, 0, 4, 0, // the coins of Alice, Bob and Carol
    0, 2, 10, 0, 0, 1, 1, 0, // Bob claims Alice's coin, Alice takes it back
    1, 4, 12, 0, 1, 2, 2, 0, // Carol claims Bob's, Bob takes it back
    2, 1, 9, 0, 2, 4, 4, 0, // Alice claims Carol's, Carol takes it back
    0, 0, 0, 0, 0, 0, 0, 0, 1, 4, 0, 0, 1, 3, 0, 0, 1, 2, // locks
];

/// The three coins are locked in blocks 1 to 3, and so many blocks are mined.
fn ring_locked(blocks: usize) -> Steps {
    let coins = [
        confirmed(0, 0, 2, 1),
        confirmed(1, 1, 2, 1),
        confirmed(3, 2, 2, blocks - 2),
    ];
    coins.concat()
}

/// A ring of three at 144 blocks per day, open conduct.
fn ring(stealth: u8, steps: &[[u8; 4]]) -> Files {
    files(&RING, [144, 0, 0, stealth], steps)
}

/// Nobody has claimed yet: Alice has until block 288.
fn ring_waiting() -> Files {
    ring(0, &ring_locked(250))
}

/// Alice claimed Carol's coin in block 281 and showed her secret: Carol has until block 432, Bob until block 576.
fn ring_claimed() -> Files {
    ring(1, &[ring_locked(280), confirmed(0, 7, 0, 20)].concat())
}

/// Each coin went on to the next.
fn ring_paid() -> Files {
    let claims = [(0, 7), (3, 5), (1, 3)].map(|(party, t)| confirmed(party, t, party, 1));
    ring(0, &[ring_locked(100), claims.concat()].concat())
}

/// Alice never claimed: the owners took their coins back, Alice hers last.
fn ring_refunded() -> Files {
    let steps = [
        ring_locked(288),
        confirmed(3, 8, 3, 144),
        confirmed(1, 6, 1, 144),
        confirmed(0, 4, 0, 1),
    ];
    ring(0, &steps.concat())
}

/// P10's sheet and a setup, and a journal that is not there.
fn missing_journal() -> Files {
    [Some(P10.to_vec()), Some(vec![1, 0, 0, 0]), None, None, None]
}

/// 32 openings that pay either, the longest valid sheet, and a byte more.
fn long_sheet() -> Files {
    let mut sheet = vec![32, 1, 0, 1, 1];
    sheet.extend([255, 3, 1, 0].repeat(32));
    sheet.extend([0; 2 * 32 + 1]);
    files(&sheet, [1, 0, 0, 0], &[])
}

/// A valid setup and a byte more.
fn long_setup() -> Files {
    let [sheet, _, journal, side, base] = numbers();
    [sheet, Some(vec![1, 0, 0, 0, 0]), journal, side, base]
}

/// Success at 3 blocks, 3 a day: its deadline is reached.
fn late_step() -> Files {
    let late = vec![[2, 0, 0, 1], MINE, MINE, [3, 1, 2, 2], MINE];
    saswap([3, 0, 0], &[&LOCK_A[..], &late].concat())
}

/// A journal of three bytes.
fn short_journal() -> Files {
    let [sheet, setup, _, side, base] = numbers();
    [sheet, setup, Some(vec![3, 0, 0]), side, base]
}

/// All samples: swaps that are accepted, and a folder with refused and unreadable ones and one that is accepted.
pub fn samples() -> Vec<Sample> {
    let mut samples = named();
    samples.extend(desk());
    samples
}

fn named() -> Vec<Sample> {
    let samples = [
        ("swaps/fresh", fresh()),
        ("swaps/locked", locked()),
        ("swaps/numbers", numbers()),
        ("swaps/paid", paid()),
        ("swaps/pool", pool()),
        ("swaps/refunded", refunded()),
        ("swaps/revoked", revoked()),
        ("swaps/standing", with_side(standing(), "alice\n")),
        ("swaps/taken", taken()),
        ("swaps/taken_stealth", taken_stealth()),
        ("swaps/waiting", waiting()),
        ("bases/revoked", with_base(revoked(), "800000\n")),
        ("bases/standing", with_base(standing(), "800156")),
        ("mixed/own", standing()),
        ("mixed/revoked", with_base(revoked(), "0\r\n")),
        ("refused/bad_base", with_base(numbers(), "500000000\n")),
        ("refused/bad_conduct", files(&P10, [3, 0, 3, 0], &[])),
        ("refused/bad_field", files(&P10, [1, 0, 0, 0], &[[0; 4]])),
        ("refused/bad_side", with_side(numbers(), "dave\n")),
        ("refused/careful_ring", files(&RING, [144, 0, 2, 0], &[])),
        ("refused/late_step", late_step()),
        ("refused/long_setup", long_setup()),
        ("refused/long_sheet", long_sheet()),
        ("refused/missing_journal", missing_journal()),
        ("refused/no_party", with_side(numbers(), "carol\n")),
        ("refused/short_journal", short_journal()),
        ("refused/short_sheet", files(&P10[..16], [1, 0, 0, 0], &[])),
        ("refused/sound", numbers()),
        ("rings/claimed", ring_claimed()),
        ("rings/paid", ring_paid()),
        ("rings/refunded", ring_refunded()),
        ("rings/waiting", ring_waiting()),
        ("rings/waiting_carol", with_side(ring_waiting(), "carol\n")),
    ];
    samples
        .map(|(name, files)| (name.to_string(), files))
        .to_vec()
}

/// A desk of forty swaps on one sheet, of 144 blocks per day, in eight stages; half of them with stealth.
fn desk() -> Vec<Sample> {
    let swap = |i: usize| {
        let side = if i % 3 == 0 { "bob\n" } else { "alice\n" };
        let files = saswap([144, 2, (i % 2) as u8], &stage(i % 8, 5 * (i / 8)));
        (format!("desk/swap_{:02}", i + 1), with_side(files, side))
    };
    (0..40).map(swap).collect()
}

/// How far a swap has come, and so many blocks more.
fn stage(stage: usize, more: usize) -> Steps {
    let success = vec![[1, 0, 2, 2], [3, 1, 2, 2]];
    let revoke = || confirmed(1, 4, 2, 1 + 20 * more);
    match stage {
        0 => Steps::new(),
        1 => [&FIRST_SHARES[..], &LOCK_A].concat(),
        2 => both_locked(10 + more),
        3 => [both_locked(100 + more), success].concat(),
        4 => both_locked(140 + more),
        5 => [both_locked(200 + more), vec![[3, 0, 3, 2]]].concat(),
        6 => both_locked(280 + more),
        _ => [both_locked(290 + more), revoke()].concat(),
    }
}

/// The samples of a folder by name; one sample alone where the folder is its own.
pub fn in_folder(folder: &str) -> Vec<(String, Files)> {
    let mut found = Vec::new();
    for (name, files) in samples() {
        if name == folder {
            let name = folder.rsplit('/').next().expect("a last part");
            return vec![(name.to_string(), files)];
        }
        if let Some(name) = name.strip_prefix(&format!("{folder}/")) {
            found.push((name.to_string(), files));
        }
    }
    found
}
