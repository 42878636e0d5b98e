//! Slip 14: the few steps that matter. The built library's call against the model's, on cases of every sort and every refusal; and
//! what the slip says of the part, on the library's own answers.

use swap_tests::engine;
use swap_tests::model::journal;
use swap_tests::model::shrink::{self as model, MOST_STEPS};
use swap_tests::model::{setup, sheet};
use swap_tests::random::{self, Case, Random, MINE};
use swap_tests::slow::{slow, slowest};

/// What a buffer holds before a call.
const FILL: u8 = 170;

/// How often each refusal was answered, none under 0, and of the parts: steps before and after, and the most rounds.
#[derive(Debug)]
struct Answers {
    refusals: [usize; 38],
    steps: usize,
    left: usize,
    rounds: usize,
}

impl Answers {
    fn none() -> Answers {
        Answers {
            refusals: [0; 38],
            steps: 0,
            left: 0,
            rounds: 0,
        }
    }

    /// One call of both with a buffer of so many bytes: the same number and the same bytes.
    fn call(&mut self, (sheet, setup, journal): &Case, length: usize) -> (u32, Vec<u8>) {
        let mut expected = vec![FILL; length];
        let mut output = expected.clone();
        let number = model::number(sheet, setup, journal, &mut expected);
        let answer = engine::shrink(sheet, setup, journal, &mut output);
        let inputs = format!("sheet {sheet:?} setup {setup:?} journal {journal:?} {length} bytes");
        assert_eq!(answer, number, "{inputs}");
        assert_eq!(output, expected, "{inputs}");
        self.refusals[(answer >> 16) as usize] += 1;
        (answer, output)
    }

    /// A case with buffers of every sort: long, exact, one byte short and long, and empty.
    fn try_case(&mut self, case: &Case) {
        let (answer, output) = self.call(case, 4 * MOST_STEPS);
        let bytes = 4 * (answer & 0xffff) as usize;
        for length in [bytes, bytes.saturating_sub(1), bytes + 1, 0] {
            self.call(case, length);
        }
        if answer >> 16 == 0 {
            self.written(case, &output[..bytes]);
        }
    }

    /// What the slip says of a part that was written, by the library's own runs.
    fn written(&mut self, (sheet, setup, journal): &Case, part: &[u8]) {
        let whole = engine::run(sheet, setup, journal);
        let refused = 4 * (whole & 0xffff) as usize;
        let wanted = |steps: usize| whole >> 16 << 16 | (steps as u32 - 1);
        let steps = part.len() / 4;
        // "steps in their old order, that ends with the refused step"
        let (before, last) = part.split_at(part.len() - 4);
        assert_eq!(last, &journal[refused..refused + 4]);
        let mut rest = journal[..refused].chunks_exact(4);
        assert!(before
            .chunks_exact(4)
            .all(|step| rest.any(|other| other == step)));
        // "still runs up to it and gets the same number there"
        assert_eq!(engine::run(sheet, setup, part), wanted(steps));
        // "Dropping one other step from the part must lose that."
        for at in 0..steps - 1 {
            let without = [&part[..4 * at], &part[4 * at + 4..]].concat();
            assert_ne!(engine::run(sheet, setup, &without), wanted(steps - 1));
        }
        // What follows the refused step never counts, and a part is shrunk already.
        let mut again = vec![FILL; part.len()];
        for journal in [&journal[..refused + 4], part] {
            let answer = engine::shrink(sheet, setup, journal, &mut again);
            assert_eq!((answer as usize, &again[..]), (steps, part));
        }
        self.steps += refused / 4 + 1;
        self.left += steps;
        self.rounds = self
            .rounds
            .max(rounds(sheet, setup, &journal[..refused + 4], whole >> 16));
    }
}

/// The rounds of the model.
fn rounds(sheet: &[u8], setup: &[u8], journal: &[u8], number: u32) -> usize {
    let (Ok(read_sheet), Ok(read_setup)) = (sheet::read(sheet), setup::read(sheet, setup)) else {
        return 0;
    };
    model::rounds(&read_sheet, &read_setup, &journal::groups(journal), number).1
}

#[test]
fn every_refusal() {
    let mut random = Random::new(141);
    let mut answers = Answers::none();
    for round in 0..3_000 {
        let case = match round % 3 {
            0 => random::case(&mut random, 60),
            _ => random::led_case(&mut random, 60, round as u32 / 3 % 24 + 1),
        };
        answers.try_case(&case);
    }
    println!("{answers:?}");
    for number in (0..=10).chain([24, 25, 37]) {
        assert!(answers.refusals[number] >= 50, "{number}");
    }
    assert!((11..=23).all(|number| answers.refusals[number] == 0));
    assert!(answers.left * 2 < answers.steps && answers.rounds >= 4);
}

/// A step of each number is refused at the end of a journal, and the part keeps that number.
#[test]
fn numbers_kept() {
    let mut random = Random::new(142);
    let mut kept = [0; 24];
    for round in 0..6_000 {
        let case = random::led_case(&mut random, 40, round % 12 + 11);
        let (sheet, setup, journal) = &case;
        let whole = engine::run(sheet, setup, journal) >> 16;
        let mut output = [FILL; 4 * MOST_STEPS];
        let answer = engine::shrink(sheet, setup, journal, &mut output);
        if answer >> 16 == 0 {
            let part = &output[..4 * answer as usize];
            assert_eq!(engine::run(sheet, setup, part) >> 16, whole);
            kept[whole as usize] += 1;
        }
    }
    println!("numbers kept: {kept:?}");
    assert!((11..=22).all(|number| kept[number] >= 5));
}

/// Damaged sheets, setups and journals.
#[test]
fn damaged() {
    let mut random = Random::new(143);
    let mut answers = Answers::none();
    for round in 0..2_000 {
        let mut case = random::led_case(&mut random, 30, round % 12 + 11);
        match round % 3 {
            0 => random::damage(&mut random, &mut case.0),
            1 => random::damage(&mut random, &mut case.1),
            _ => random::damage(&mut random, &mut case.2),
        }
        answers.try_case(&case);
    }
    println!("{answers:?}");
    assert!(answers.refusals[0] >= 500 && answers.refusals[24] >= 50);
}

/// One round for each transaction of the chain, and one more.
#[test]
fn many_rounds() {
    for chain in [1, 2, 5, 30] {
        let mut answers = Answers::none();
        let case = slow(chain, 40);
        answers.try_case(&case);
        assert_eq!(answers.rounds, usize::from(chain) + 1);
        assert_eq!(answers.steps - answers.left, usize::from(chain));
    }
    // on a sheet of three: two for each of three that are confirmed, one for each of three that wait, and two more
    let mut answers = Answers::none();
    answers.try_case(&slowest(8, 160));
    assert_eq!(answers.rounds, 11);
    let (sheet, setup, journal) = slow(30, 927);
    let mut output = [FILL; 4 * MOST_STEPS];
    assert_eq!(journal.len(), 4 * 961);
    assert_eq!(engine::shrink(&sheet, &setup, &journal, &mut output), 931);
    let expected = [&journal[..12], &journal[4 * 33..]].concat();
    assert_eq!(output[..4 * 931], expected);
}

/// 36: 1,025 steps, before any step is looked at and after 24; 1,024 are taken.
#[test]
fn long_journals() {
    let mut answers = Answers::none();
    let (sheet, setup, journal) = slow(3, 20);
    for steps in [1_023, 1_024, 1_025, 1_026, 16_384, 16_385] {
        for less in [0, 1] {
            let mut long = journal.clone();
            long.resize(4 * steps - less, 0);
            let case = (sheet.clone(), setup.clone(), long);
            let (answer, _) = answers.call(&case, 4 * MOST_STEPS);
            let expected = match (less, steps) {
                (0, ..=1_024) => 0,
                (0, ..=16_384) => 36,
                _ => 24,
            };
            assert_eq!(answer >> 16, expected);
            // A sheet's and a setup's refusal stands before 24 and 36.
            let mut broken = case.clone();
            broken.1[1] = 255;
            assert_eq!(answers.call(&broken, 0).0, 9 << 16);
            broken.0.pop();
            assert_eq!(answers.call(&broken, 0).0, 4 << 16);
        }
    }
    // 36 where nothing is refused too, and 37 up to 1,024 accepted steps.
    let front = journal[..journal.len() - 4].to_vec();
    let mut mined = front.clone();
    mined.extend(MINE.repeat(MOST_STEPS - front.len() / 4));
    let mut case = (sheet, setup, mined);
    assert_eq!(answers.call(&case, 0).0, 37 << 16);
    case.2.extend(MINE);
    assert_eq!(answers.call(&case, 0).0, 36 << 16);
}

/// Bytes of any sort.
#[test]
fn bytes_of_any_sort() {
    let mut random = Random::new(144);
    let mut answers = Answers::none();
    for length in 0..=120 {
        for _ in 0..20 {
            let sheet = random.bytes(length);
            let (setup, journal, room) = (random.below(6), random.below(30), random.below(40));
            let case = (sheet, random.bytes(setup), random.bytes(journal));
            answers.call(&case, room);
        }
    }
    assert!(answers.refusals[1] > 0 && answers.refusals[2] > 0);
}
