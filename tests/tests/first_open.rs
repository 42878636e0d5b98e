//! Slip 9: "Since when has it been open?" The built library's counts along journals, and the older rows in front of them.

use swap_tests::engine;
use swap_tests::model::calls;
use swap_tests::model::heights::NEVER;
use swap_tests::model::report::{self, OLDER_ROW, ROW};
use swap_tests::model::setup::Setup;
use swap_tests::model::slips::Slips;
use swap_tests::model::{first_open, journal};
use swap_tests::random::{self, Random};

/// The library's report of a journal that is accepted whole.
fn reported(sheet: &[u8], setup: &[u8], journal: &[u8]) -> Vec<u8> {
    let mut rows = vec![0; ROW * usize::from(sheet[0])];
    assert_eq!(engine::report(sheet, setup, journal, &mut rows), 0);
    rows
}

/// The count at the end of a row.
fn count(rows: &[u8], t: usize) -> u32 {
    let bytes = &rows[ROW * t + OLDER_ROW..][..4];
    u32::from_le_bytes(bytes.try_into().expect("four bytes"))
}

/// After each step of random journals: the rows before their counts are the older ones; each count is the one before, or
/// there was none and it is the blocks mined now, where the transaction is open.
#[test]
fn along_journals() {
    let mut random = Random::new(9);
    let (mut steps, mut opened, mut confirmed_unopened) = (0, 0, 0);
    while steps < 12_000 {
        let (sheet, setup, bytes) = random::case(&mut random, 60);
        let Ok(outcome) = calls::outcome(&sheet, &setup, &bytes) else {
            continue;
        };
        let accepted = outcome.course.accepted;
        let older = Setup {
            slips: Slips {
                first_open_in_report: false,
                ..Slips::ALL
            },
            ..outcome.setup
        };
        let mut before = vec![NEVER; usize::from(sheet[0])];
        for k in 0..=accepted.len() {
            let (_, course) = journal::run(&outcome.sheet, &outcome.setup, &accepted[..k]);
            let rows = reported(&sheet, &setup, &accepted[..k].concat());
            let short = report::bytes(&outcome.sheet, &older, &course);
            for (t, last) in before.iter_mut().enumerate() {
                assert_eq!(
                    rows[ROW * t..][..OLDER_ROW],
                    short[OLDER_ROW * t..][..OLDER_ROW]
                );
                let now = count(&rows, t);
                let open =
                    first_open::is_open(&outcome.sheet, &outcome.setup, &course.position, t as u8);
                match *last {
                    NEVER if open => assert_eq!(now, course.position.mined),
                    last => assert_eq!(now, last),
                }
                opened += usize::from(*last != now);
                *last = now;
            }
            steps += 1;
        }
        let position = &outcome.course.position;
        confirmed_unopened += (0..sheet[0])
            .filter(|&t| position.is_confirmed(t) && before[usize::from(t)] == NEVER)
            .count();
    }
    println!("{steps} steps, {opened} counts set, {confirmed_unopened} confirmed and never open");
    assert!(opened > 1_000 && confirmed_unopened > 0);
}

/// "buffer sizes in 25 follow": 18 bytes for each transaction.
#[test]
fn buffer_sizes() {
    let mut random = Random::new(18);
    let mut whole = 0;
    for _ in 0..400 {
        let (sheet, setup, journal) = random::case(&mut random, 40);
        if calls::run(&sheet, &setup, &journal).refusal != 0 {
            continue;
        }
        let needed = ROW * usize::from(sheet[0]);
        let mut output = vec![170; needed + 5];
        let short = engine::report(&sheet, &setup, &journal, &mut output[..needed - 1]);
        assert_eq!(short, 25 << 16);
        assert!(output.iter().all(|&byte| byte == 170));
        assert_eq!(engine::report(&sheet, &setup, &journal, &mut output), 0);
        assert_eq!(output[needed..], [170; 5]);
        whole += 1;
    }
    assert!(whole > 50);
}
