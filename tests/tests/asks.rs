//! Slip 12: ask and commit. The built library's two calls against the model's, on cases of every sort and every refusal; and what
//! the slip says of them, on the library's own answers.

use swap_tests::engine;
use swap_tests::model::asks as model;
use swap_tests::model::calls;
use swap_tests::model::journal::{self, MOST_BYTES};
use swap_tests::random::{self, Case, Random, MINE};
use swap_tests::samples::{FIRST_SHARES, LOCK_A};

/// What the bytes of a buffer behind its journal hold before a call.
const FILL: u8 = 170;

/// How often each refusal was answered, none under 0.
#[derive(Debug)]
struct Answers {
    ask: [usize; 36],
    commit: [usize; 36],
}

impl Answers {
    fn none() -> Answers {
        Answers {
            ask: [0; 36],
            commit: [0; 36],
        }
    }

    /// One ask of both: the same number.
    fn ask(&mut self, (sheet, setup, journal): &Case, step: &[u8]) -> u32 {
        let expected = model::ask_number(sheet, setup, journal, step);
        let answer = engine::ask(sheet, setup, journal, step);
        assert_eq!(
            answer, expected,
            "sheet {sheet:?} setup {setup:?} journal {journal:?} step {step:?}"
        );
        self.ask[(answer >> 16) as usize] += 1;
        answer
    }

    /// One commit of both: the same number, count 0, and the same bytes.
    fn commit(
        &mut self,
        (sheet, setup, buffer): &Case,
        step: &[u8],
        count: u32,
        size: u32,
    ) -> (u32, Vec<u8>) {
        let mut expected = buffer.clone();
        let mut output = buffer.clone();
        let number = model::commit_number(sheet, setup, step, count, &mut expected, size);
        let answer = engine::commit(sheet, setup, step, count, &mut output, size);
        let inputs = format!(
            "sheet {sheet:?} setup {setup:?} step {step:?} count {count} buffer {buffer:?} size {size}"
        );
        assert_eq!(answer, number, "{inputs}");
        assert_eq!(output, expected, "{inputs}");
        self.commit[(answer >> 16) as usize] += 1;
        (answer >> 16, output)
    }
}

/// The case with so many bytes behind its journal.
fn with_room((sheet, setup, journal): &Case, room: usize) -> Case {
    let mut buffer = journal.clone();
    buffer.resize(journal.len() + room, FILL);
    (sheet.clone(), setup.clone(), buffer)
}

/// Ask, and commits with its count and others, with lengths that are the journal's and others, in buffers of every sort.
fn try_case(answers: &mut Answers, random: &mut Random, case: &Case) {
    let step = random::next_step(random, case);
    let asked = answers.ask(case, &step);
    let (count, size) = (asked & 0xffff, case.2.len() as u32);
    for room in [0, 3, 4, 5, 40] {
        let lent = with_room(case, room);
        let (refusal, output) = answers.commit(&lent, &step, count, size);
        // "with .. ask's count given, it is ask's, 25 aside"
        match (asked >> 16, room < 4) {
            (0, true) => assert_eq!(refusal, 25),
            (number, _) => assert_eq!(refusal, number),
        }
        if refusal != 0 {
            assert_eq!(output, lent.2);
        } else {
            passed(answers, random, &lent, &step, count, &output);
        }
        for other in [count.wrapping_sub(1), count + 1, u32::MAX] {
            answers.commit(&lent, &step, other, size);
        }
        for other in [
            0,
            size.wrapping_sub(4),
            size + 1,
            size + 4,
            size + 44,
            u32::MAX,
        ] {
            answers.commit(&lent, &step, count, other);
        }
    }
}

/// After a commit that passed: run accepts the longer journal, one step more, and a second one on the same count can't pass.
fn passed(
    answers: &mut Answers,
    random: &mut Random,
    (sheet, setup, buffer): &Case,
    step: &[u8],
    count: u32,
    output: &[u8],
) {
    let size = 4 * count as usize;
    assert_eq!(output[..size], buffer[..size]);
    assert_eq!(output[size..size + 4], *step);
    assert_eq!(output[size + 4..], buffer[size + 4..]);
    assert_eq!(engine::run(sheet, setup, &output[..size + 4]), count + 1);
    let after = with_room(&(sheet.clone(), setup.clone(), output.to_vec()), 8);
    for second in [step.to_vec(), MINE.to_vec(), random.bytes(4), vec![]] {
        let (refusal, bytes) = answers.commit(&after, &second, count, (size + 4) as u32);
        assert_eq!(refusal, 35);
        assert_eq!(bytes, after.2);
    }
}

#[test]
fn every_refusal() {
    let mut random = Random::new(121);
    let mut answers = Answers::none();
    for round in 0..6_000 {
        let case = match round % 2 {
            0 => random::case(&mut random, 40),
            _ => random::led_case(&mut random, 30, round as u32 / 2 % 24 + 1),
        };
        try_case(&mut answers, &mut random, &case);
        let accepted = whole(&case);
        try_case(&mut answers, &mut random, &accepted);
    }
    println!("asks and commits by refusal: {answers:?}");
    for number in (0..=22).chain([24]) {
        assert!(answers.ask[number] >= 10, "ask {number}");
        assert!(answers.commit[number] >= 200, "commit {number}");
    }
    assert!(answers.commit[25] >= 1_000 && answers.commit[35] >= 1_000);
    assert_eq!(answers.ask[25] + answers.ask[35], 0);
}

/// The case with the accepted front of its journal alone.
fn whole((sheet, setup, journal): &Case) -> Case {
    let accepted = calls::run(sheet, setup, journal).accepted;
    (
        sheet.clone(),
        setup.clone(),
        journal[..4 * accepted].to_vec(),
    )
}

/// Ask's 0 is the list's: every step that a journal could have next, by the library's own list.
#[test]
fn open_steps() {
    let mut random = Random::new(122);
    let mut open = 0;
    let mut others = 0;
    for _ in 0..300 {
        let case = whole(&random::case(&mut random, 40));
        let (sheet, setup, journal) = &case;
        let Ok(outcome) = calls::outcome(sheet, setup, journal) else {
            continue;
        };
        let mut output = [0; 1_060];
        let listed = engine::list(sheet, setup, journal, &mut output) as usize;
        let steps: Vec<&[u8]> = output[..4 * listed].chunks_exact(4).collect();
        let found = random::by_refusal(&outcome.sheet, &outcome.setup, &outcome.course.position);
        for step in found.into_values().flatten() {
            let answer = engine::ask(sheet, setup, journal, &step);
            assert_eq!(answer >> 16 == 0, steps.contains(&&step[..]));
            assert_eq!(answer as usize & 0xffff, journal.len() / 4);
            match answer >> 16 {
                0 => open += 1,
                _ => others += 1,
            }
        }
    }
    println!("{open} open steps and {others} others asked about");
    assert!(open >= 2_000 && others >= 20_000);
}

/// 24: a journal at 65,536 bytes is refused before it is run, by ask and by commit, and not by run; one of 65,532 is run.
#[test]
fn full_journals() {
    let mut answers = Answers::none();
    let lock_a = [FIRST_SHARES.concat(), LOCK_A.concat()].concat();
    let (sheet, setup) = (swap_tests::model::sheet::saswap(3), vec![3, 0, 0, 1]);
    for length in MOST_BYTES - 6..=MOST_BYTES + 6 {
        let journal: Vec<u8> = lock_a.iter().copied().cycle().take(length).collect();
        let run = calls::run_number(&sheet, &setup, &journal);
        let case = (sheet.clone(), setup.clone(), journal);
        let asked = answers.ask(&case, &MINE);
        match length % 4 == 0 && length < MOST_BYTES {
            true => assert_eq!(asked, run),
            false => assert_eq!(asked, 24 << 16),
        }
        for room in [0, 4] {
            let lent = with_room(&case, room);
            let (refusal, _) = answers.commit(&lent, &MINE, asked & 0xffff, length as u32);
            assert_eq!(refusal, asked >> 16);
        }
        // A sheet's and a setup's refusal stands before 24.
        let mut broken = case.clone();
        broken.1[0] = 0;
        assert_eq!(answers.ask(&broken, &MINE), 9 << 16);
        broken.0.pop();
        assert_eq!(answers.ask(&broken, &MINE), 4 << 16);
    }
}

/// 23: a journal with 10,000 blocks has room for one step more, which is refused or passes as it would before.
#[test]
fn ten_thousand_blocks() {
    let mut answers = Answers::none();
    let sheet = vec![1, 1, 0, 1, 1, 255, 3, 1, 0, 0, 0];
    let setup = vec![1, 0, 0, 0];
    let mut journal = [[3, 0, 0, 0], [5, 2, 0, 2]].concat();
    journal.extend(MINE.repeat(10_000));
    assert_eq!(journal::groups(&journal).len(), 10_002);
    let case = (sheet, setup, journal);
    assert_eq!(answers.ask(&case, &MINE), 23 << 16 | 10_002);
    let lent = with_room(&case, 4);
    assert_eq!(answers.commit(&lent, &MINE, 10_002, 40_008).0, 23);
    assert_eq!(answers.commit(&lent, &MINE, 10_001, 40_008).0, 35);
    assert_eq!(answers.commit(&lent, &MINE, 10_001, 40_004).0, 0);
}

/// The order of the tests, each with all later ones wrong too.
#[test]
fn order() {
    let sheet = vec![1, 1, 0, 1, 1, 255, 3, 1, 0, 0, 0];
    let commit = |setup: &[u8], step: &[u8], count, journal: &[u8], room, size| {
        let mut buffer = journal.to_vec();
        buffer.resize(journal.len() + room, FILL);
        engine::commit(&sheet, setup, step, count, &mut buffer, size)
    };
    let open = [1, 0, 0, 0];
    let send = [3, 0, 0, 0];
    let twice = [send, send].concat();
    assert_eq!(commit(&[0, 0, 0, 0], &[], 7, &[], 0, 1), 9 << 16);
    assert_eq!(commit(&open, &[], 7, &twice, 0, 9), 24 << 16);
    assert_eq!(commit(&open, &[], 7, &twice, 0, 12), 24 << 16);
    assert_eq!(commit(&open, &[], 7, &twice, 0, 8), 14 << 16);
    assert_eq!(commit(&open, &[], 7, &send, 0, 4), 35 << 16);
    assert_eq!(commit(&open, &[], 1, &send, 0, 4), 11 << 16);
    assert_eq!(commit(&open, &send, 1, &send, 0, 4), 14 << 16);
    assert_eq!(commit(&open, &[5, 2, 0, 2], 1, &send, 3, 4), 25 << 16);
    assert_eq!(commit(&open, &[5, 2, 0, 2], 1, &send, 4, 4), 0);
    assert_eq!(engine::ask(&sheet, &open, &twice, &[]), 14 << 16 | 1);
    assert_eq!(engine::ask(&sheet, &open, &send, &[]), 11 << 16 | 1);
}

/// Bytes of any sort.
#[test]
fn bytes_of_any_sort() {
    let mut random = Random::new(123);
    let mut answers = Answers::none();
    for length in 0..=120 {
        for _ in 0..20 {
            let sheet = random.bytes(length);
            let (setup, journal, step) = (random.below(6), random.below(30), random.below(7));
            let case = (sheet, random.bytes(setup), random.bytes(journal));
            let step = random.bytes(step);
            answers.ask(&case, &step);
            let (count, size) = (random.below(9) as u32, random.below(40) as u32);
            answers.commit(&case, &step, count, size);
            answers.commit(&case, &step, random.number() as u32, random.number() as u32);
        }
    }
    assert!(answers.ask[1] > 0 && answers.commit[2] > 0);
}
