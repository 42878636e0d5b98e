//! Another firm's block list: the built library against the model, on lists that journals confirm, on such lists damaged,
//! and on lists made entry by entry; the ledger's answer and the slip's own words agree on each that passes 29 and 30.

use swap_tests::engine;
use swap_tests::model::block_list;
use swap_tests::model::journal;
use swap_tests::model::ledger::Entry;
use swap_tests::random::{self, Random};

/// The sheet of P10.
const P10: [u8; 17] = [2, 2, 0, 1, 2, 255, 0, 1, 0, 0, 2, 2, 0, 0, 0, 1, 1];
const ONE_A_DAY: [u8; 4] = [1, 0, 0, 0];

/// How often each refusal was answered.
#[derive(Default)]
struct Answers {
    counts: [usize; 32],
}

impl Answers {
    /// Compares one list, and the two readings of 31 where it comes to that.
    fn compare(&mut self, sheet: &[u8], setup: &[u8], list: &[u8]) -> u32 {
        let answer = engine::blocks(sheet, setup, list);
        let what = || format!("sheet {sheet:?} setup {setup:?} list {list:?}");
        assert_eq!(
            answer,
            block_list::check_number(sheet, setup, list),
            "{}",
            what()
        );
        let refusal = answer / 65_536;
        if refusal == 0 || refusal == 31 {
            let (sheet, setup) = random::read(sheet, setup);
            let stand = block_list::all_stand(&sheet, &setup, &block_list::entries(list));
            assert_eq!(stand, refusal == 0, "{}", what());
        }
        self.counts[refusal as usize] += 1;
        refusal
    }

    /// Every front of an accepted list, of whole entries, is accepted.
    fn compare_fronts(&mut self, sheet: &[u8], setup: &[u8], list: &[u8]) {
        if self.compare(sheet, setup, list) == 0 {
            for entries in 0..list.len() / 4 {
                assert_eq!(engine::blocks(sheet, setup, &list[..4 * entries]), 0);
            }
        }
    }
}

/// A small change that often leaves a list in order: a block, an entry less, an entry twice, another destination.
fn shift(random: &mut Random, entries: &mut Vec<Entry>) {
    if entries.is_empty() {
        return;
    }
    let place = random.below(entries.len());
    match random.below(5) {
        0 => entries[place].block = entries[place].block.saturating_sub(1),
        1 => entries[place].block += 1,
        2 => {
            entries.remove(place);
        }
        3 => entries.push(entries[place]),
        _ => entries[place].transaction ^= 1,
    }
}

#[test]
fn examples() {
    let cases: [(&[u8], u32); 19] = [
        (&[], 0),
        (&[0, 2, 1, 0], 0),
        (&[0, 2, 1, 0, 1, 1, 2, 0], 0),
        // 29: length, transaction, destinations
        (&[0, 2, 1], 29),
        (&[2, 2, 1, 0], 29),
        (&[0, 0, 1, 0], 29),
        (&[0, 2, 1, 0, 1, 0, 2, 0], 29),
        (&[0, 2, 1, 0, 1, 2, 2, 0], 29),
        // 30: order, twice, block 0, block 10,001; the last block passes
        (&[1, 1, 2, 0, 0, 2, 1, 0], 30),
        (&[0, 2, 1, 0, 0, 2, 1, 0], 30),
        (&[0, 2, 0, 0], 30),
        (&[0, 2, 17, 39], 30),
        (&[0, 2, 16, 39], 0),
        // 29 before 30, over the whole list
        (&[0, 2, 0, 0, 9, 9, 0, 0], 29),
        // 31: no parent, lock, the same again
        (&[1, 1, 2, 0], 31),
        (&[0, 2, 1, 0, 1, 1, 1, 0], 31),
        (&[0, 2, 1, 0, 0, 2, 2, 0], 31),
        // 30 before 31, over the whole list
        (&[1, 1, 2, 0, 0, 2, 2, 0], 30),
        // in the parent's own block, past an absolute lock
        (&[0, 2, 2, 0, 1, 1, 2, 0], 0),
    ];
    let mut answers = Answers::default();
    for (list, refusal) in cases {
        assert_eq!(
            answers.compare(&P10, &ONE_A_DAY, list),
            refusal,
            "list {list:?}"
        );
    }
}

#[test]
fn since_the_parent() {
    // an opening, and a payout one day after it
    let sheet = [2, 1, 0, 1, 1, 255, 0, 1, 0, 0, 3, 1, 0, 0, 0, 2, 1];
    let mut answers = Answers::default();
    for block in 1..=9 {
        let list = [0, 2, 3, 0, 1, 1, block, 0];
        let refusal = match block {
            1 | 2 => 30,
            3..=5 => 31,
            _ => 0,
        };
        assert_eq!(answers.compare(&sheet, &[2, 0, 0, 0], &list), refusal);
    }
}

/// "The confirmed list of every accepted journal must be accepted".
#[test]
fn confirmed_lists() {
    let mut random = Random::new(8);
    let mut answers = Answers::default();
    let mut longest = 0;
    for _ in 0..4_000 {
        let (sheet, setup) = random::game(&mut random);
        let (read_sheet, read_setup) = random::read(&sheet, &setup);
        let manner = random::manner(&mut random, 120);
        let groups = random::groups(&mut random, &read_sheet, &read_setup, manner);
        let mut entries = journal::play(&read_sheet, &read_setup, &groups).entries;
        let list = block_list::bytes(&entries);
        assert_eq!(engine::blocks(&sheet, &setup, &list), 0);
        answers.compare_fronts(&sheet, &setup, &list);
        longest = longest.max(entries.len());
        for _ in 0..4 {
            shift(&mut random, &mut entries);
            answers.compare_fronts(&sheet, &setup, &block_list::bytes(&entries));
        }
    }
    println!(
        "confirmed lists and changes of them, answers by refusal: {:?}",
        answers.counts
    );
    assert!(longest > 4);
    assert!([0, 29, 30, 31].iter().all(|&n| answers.counts[n] > 100));
}

#[test]
fn made_lists() {
    let mut random = Random::new(9);
    let mut answers = Answers::default();
    for _ in 0..100_000 {
        let (sheet, setup) = random::any_game(&mut random);
        let (read_sheet, read_setup) = random::read(&sheet, &setup);
        let entries = random::entries(&mut random, &read_sheet, read_setup.blocks_per_day.min(30));
        answers.compare_fronts(&sheet, &setup, &block_list::bytes(&entries));
    }
    println!("made lists, answers by refusal: {:?}", answers.counts);
    assert!([0, 30, 31].iter().all(|&n| answers.counts[n] > 1_000));
}

#[test]
fn damaged() {
    let mut random = Random::new(10);
    let mut answers = Answers::default();
    for _ in 0..100_000 {
        let (mut sheet, mut setup) = random::game(&mut random);
        let (read_sheet, read_setup) = random::read(&sheet, &setup);
        let entries = random::entries(&mut random, &read_sheet, read_setup.blocks_per_day.min(30));
        let mut list = block_list::bytes(&entries);
        match random.below(4) {
            0 => random::damage(&mut random, &mut sheet),
            1 => random::damage(&mut random, &mut setup),
            _ => random::damage(&mut random, &mut list),
        }
        answers.compare(&sheet, &setup, &list);
    }
    println!("damaged, answers by refusal: {:?}", answers.counts);
    assert!((0..=10)
        .chain(29..=31)
        .all(|n: usize| answers.counts[n] > 0));
}

#[test]
fn every_length_and_byte() {
    let mut answers = Answers::default();
    let list = [0, 2, 1, 0, 1, 1, 2, 0];
    for length in 0..=list.len() {
        answers.compare(&P10, &ONE_A_DAY, &list[..length]);
    }
    for place in 0..list.len() {
        for value in 0..=255 {
            let mut damaged = list;
            damaged[place] = value;
            answers.compare(&P10, &ONE_A_DAY, &damaged);
        }
    }
    assert!([0, 29, 30, 31].iter().all(|&n| answers.counts[n] > 0));
}

/// Lists far longer than any that can rise: they end, with 29 or 30.
#[test]
fn long_lists() {
    let mut answers = Answers::default();
    let wrong_at_the_end = [[0, 2, 1, 0].repeat(500_000), vec![0, 0, 1, 0]].concat();
    assert_eq!(answers.compare(&P10, &ONE_A_DAY, &wrong_at_the_end), 29);
    assert_eq!(
        answers.compare(&P10, &ONE_A_DAY, &wrong_at_the_end[..2_000_000]),
        30
    );
    let rising: Vec<u8> = (1..=10_000_u16)
        .flat_map(|block| {
            let [low, high] = block.to_le_bytes();
            [0, 2, low, high, 1, 1, low, high]
        })
        .collect();
    assert_eq!(answers.compare(&P10, &ONE_A_DAY, &rising), 31);
}
