//! The earliest block list of an ending: the built library against the model, with buffers of every sort; what is written is
//! accepted as a block list, and no shift of it to earlier blocks is.

use swap_tests::engine;
use swap_tests::model::block_list;
use swap_tests::model::ending;
use swap_tests::model::sheet;
use swap_tests::random::{self, Ending, Random};

/// The sheet of P10.
const P10: [u8; 17] = [2, 2, 0, 1, 2, 255, 0, 1, 0, 0, 2, 2, 0, 0, 0, 1, 1];
const ONE_A_DAY: [u8; 4] = [1, 0, 0, 0];
/// What every buffer holds before a call.
const FILL: u8 = 170;

/// How often each refusal was answered.
struct Answers {
    counts: [usize; 35],
}

impl Answers {
    fn new() -> Answers {
        Answers { counts: [0; 35] }
    }

    /// Compares one call, with a buffer of this length.
    fn compare(&mut self, sheet: &[u8], setup: &[u8], ending: &Ending, length: usize) -> u32 {
        let (mask, dests) = ending;
        let mut output = vec![FILL; length];
        let mut expected = output.clone();
        let answer = engine::earliest(sheet, setup, *mask, dests, &mut output);
        let model = ending::write_number(sheet, setup, *mask, dests, &mut expected);
        let what = || format!("sheet {sheet:?} setup {setup:?} mask {mask} dests {dests:?}");
        assert_eq!((answer, &output), (model, &expected), "{}", what());
        self.counts[(answer / 65_536) as usize] += 1;
        answer
    }

    /// The same with a buffer that is exact, one byte short, longer, empty; and what the list comes to.
    fn compare_all(&mut self, sheet: &[u8], setup: &[u8], ending: &Ending) {
        let answer = self.compare(sheet, setup, ending, 128);
        let bytes = 4 * (answer % 65_536) as usize;
        for length in [bytes, bytes.saturating_sub(1), bytes + 7, 0] {
            self.compare(sheet, setup, ending, length);
        }
        if answer < 65_536 {
            accepted_and_earliest(sheet, setup, ending);
        }
    }
}

/// The list is accepted; with any one entry a block earlier, its ancestors as they are, it is not.
fn accepted_and_earliest(sheet: &[u8], setup: &[u8], (mask, dests): &Ending) {
    let mut output = [0; 128];
    let answer = engine::earliest(sheet, setup, *mask, dests, &mut output);
    let list = &output[..4 * answer as usize];
    assert_eq!(engine::blocks(sheet, setup, list), 0);
    let entries = block_list::entries(list);
    for place in 0..entries.len() {
        let mut earlier = entries.clone();
        earlier[place].block -= 1;
        earlier.sort_by_key(|entry| (entry.block, entry.transaction));
        let list = block_list::bytes(&earlier);
        assert_ne!(engine::blocks(sheet, setup, &list), 0, "{earlier:?}");
    }
}

#[test]
fn examples() {
    let four = |numbers: &[u32]| numbers.iter().flat_map(|n| n.to_le_bytes()).collect();
    let cases: [(u32, Vec<u8>, u32); 9] = [
        (0, vec![], 0),
        (2, four(&[1]), 2),
        // 33: a contract transaction, one beyond the sheet, no payee, 257, too few, too many
        (1, four(&[2]), 33 * 65_536),
        (4, four(&[1]), 33 * 65_536),
        (2, four(&[0]), 33 * 65_536),
        (2, four(&[257]), 33 * 65_536),
        (2, vec![], 33 * 65_536),
        (0, four(&[1]), 33 * 65_536),
        (2, vec![1, 0, 0], 33 * 65_536),
    ];
    let mut answers = Answers::new();
    for (mask, dests, answer) in cases {
        let ending = (mask, dests);
        assert_eq!(
            answers.compare(&P10, &ONE_A_DAY, &ending, 128),
            answer,
            "{ending:?}"
        );
        answers.compare_all(&P10, &ONE_A_DAY, &ending);
    }
    let mut output = [FILL; 9];
    assert_eq!(
        engine::earliest(&P10, &ONE_A_DAY, 2, &[1, 0, 0, 0], &mut output),
        2
    );
    assert_eq!(output, [0, 2, 1, 0, 1, 1, 2, 0, FILL]);
    let short = &mut output[..7];
    assert_eq!(
        engine::earliest(&P10, &ONE_A_DAY, 2, &[1, 0, 0, 0], short),
        25 * 65_536
    );
}

/// The last block is 10,000: days and blocks per day on both sides of it.
#[test]
fn last_block() {
    let mut answers = Answers::new();
    for (days, per_day, answer) in [(39, 256, 2), (40, 250, 34 * 65_536), (33, 303, 2)] {
        let mut sheet = P10;
        sheet[16] = days;
        let [low, high] = u16::to_le_bytes(per_day);
        let ending = (2, vec![1, 0, 0, 0]);
        let setup = [low, high, 0, 0];
        assert_eq!(answers.compare(&sheet, &setup, &ending, 128), answer);
    }
}

/// Every mask of paying transactions of the SASwap sheet, to each first payee.
#[test]
fn every_mask_of_saswap() {
    let mut answers = Answers::new();
    for per_day in [1_u16, 2, 3, 144, 1_000] {
        let bytes = sheet::saswap(per_day);
        let read = sheet::read(&bytes).expect("a sound sheet");
        let paying = random::paying(&read);
        let [low, high] = per_day.to_le_bytes();
        for chosen in 0..1_u32 << paying.len() {
            let named: Vec<u8> = (0..paying.len())
                .filter(|i| chosen >> i & 1 == 1)
                .map(|i| paying[i])
                .collect();
            let mask = named.iter().map(|t| 1 << t).sum();
            let payees = named.iter().map(|&t| read.payees(t)[0]);
            let dests = payees.flat_map(|party| u32::from(party).to_le_bytes());
            answers.compare_all(&bytes, &[low, high, 2, 1], &(mask, dests.collect()));
        }
    }
    assert!(answers.counts[0] > 100 && answers.counts[34] > 1_000);
}

#[test]
fn random_endings() {
    let mut random = Random::new(11);
    let mut answers = Answers::new();
    let mut longest = 0;
    for _ in 0..60_000 {
        let (sheet, setup) = random::game(&mut random);
        let (read, _) = random::read(&sheet, &setup);
        let ending = random::ending(&mut random, &read);
        answers.compare_all(&sheet, &setup, &ending);
        let answer = answers.compare(&sheet, &setup, &ending, 128);
        longest = longest.max(answer % 65_536);
    }
    println!(
        "random endings, longest list {longest}, answers by refusal: {:?}",
        answers.counts
    );
    assert!(longest > 12);
    assert!([0, 25, 34].iter().all(|&n| answers.counts[n] > 1_000));
}

#[test]
fn damaged() {
    let mut random = Random::new(12);
    let mut answers = Answers::new();
    for _ in 0..60_000 {
        let (mut sheet, mut setup) = random::game(&mut random);
        let (read, _) = random::read(&sheet, &setup);
        let (mut mask, mut dests) = random::ending(&mut random, &read);
        match random.below(5) {
            0 => random::damage(&mut random, &mut sheet),
            1 => random::damage(&mut random, &mut setup),
            2 => mask ^= 1 << random.below(32),
            3 => mask = random.number() as u32,
            _ => random::damage(&mut random, &mut dests),
        }
        let length = random.below(40);
        answers.compare(&sheet, &setup, &(mask, dests), length);
    }
    println!("damaged, answers by refusal: {:?}", answers.counts);
    let all = (0..=10).chain([25, 33, 34]);
    assert!(all.into_iter().all(|n: usize| answers.counts[n] > 0));
}
