//! The built library's page against the model's: cases of every sort and every refusal, with buffers of each length, and
//! positions along walks.

use swap_tests::engine;
use swap_tests::model::page::{self, LINE};
use swap_tests::model::report::{OLDER_ROW, ROW};
use swap_tests::random::{self, Case, Random, MINE};
use swap_tests::samples::{LOCK_A, P10};

/// The bytes on either side of a lent buffer.
const GUARD: usize = 17;

/// How often each refusal was answered, and the lines compared.
#[derive(Debug)]
struct Tally {
    refusals: [usize; 26],
    lines: usize,
}

impl Tally {
    fn new() -> Tally {
        Tally {
            refusals: [0; 26],
            lines: 0,
        }
    }

    /// One call with a buffer of so many bytes, filled at random.
    fn call(&mut self, random: &mut Random, (sheet, setup, journal): &Case, length: usize) -> u32 {
        let mut buffer = random.bytes(GUARD + length + GUARD);
        let mut modelled = buffer.clone();
        let answer = engine::page(sheet, setup, journal, &mut buffer[GUARD..GUARD + length]);
        let expected =
            page::page_number(sheet, setup, journal, &mut modelled[GUARD..GUARD + length]);
        assert_eq!(
            answer, expected,
            "{length} bytes, {sheet:?} {setup:?} {journal:?}"
        );
        assert_eq!(
            buffer, modelled,
            "{length} bytes, {sheet:?} {setup:?} {journal:?}"
        );
        self.refusals[(answer >> 16) as usize] += 1;
        answer
    }

    /// One case with buffers that are exact, one short, one more, long and empty.
    fn case(&mut self, random: &mut Random, case: &Case) {
        let text = page::text(&case.0, &case.1, &case.2);
        let exact = text.as_ref().map_or(16, String::len);
        for length in [exact, exact - 1, exact + 1, exact + 40, 0] {
            let answer = self.call(random, case, length);
            let fits = length >= exact;
            assert!(text.is_err() || fits == (answer == 0));
        }
        if let Ok(text) = text {
            assert_eq!(exact, LINE * (usize::from(case.0[0]) + 1));
            assert!(text.split_inclusive('\n').all(|line| line.len() == LINE));
            self.lines += exact / LINE;
        }
    }
}

#[test]
fn every_refusal() {
    let mut random = Random::new(41);
    let mut tally = Tally::new();
    for number in 0..2_400 {
        let case = random::case(&mut random, 80);
        tally.case(&mut random, &case);
        let refusal = number % 24 + 1;
        if refusal != 23 {
            let case = random::led_case(&mut random, 80, refusal);
            tally.case(&mut random, &case);
        }
    }
    // 23: one block more than 10,000
    let blocks = |count| [LOCK_A.concat(), MINE.repeat(count)].concat();
    for count in [9_999, 10_000] {
        tally.case(
            &mut random,
            &(P10.to_vec(), vec![1, 0, 0, 0], blocks(count)),
        );
    }
    println!("{tally:?}");
    assert!(tally.refusals.iter().all(|&count| count > 0), "{tally:?}");
    assert!(tally.lines > 20_000);
}

/// The page of a position has the values of its report, as they are read back from the text.
#[test]
fn read_back() {
    let mut random = Random::new(42);
    let mut never = 0;
    for _ in 0..1_000 {
        let (sheet, setup, journal) = random::case(&mut random, 80);
        let mut text = [0; LINE * 33];
        let mut report = [0; ROW * 32];
        let answer = engine::page(&sheet, &setup, &journal, &mut text);
        assert_eq!(
            answer,
            engine::report(&sheet, &setup, &journal, &mut report)
        );
        if answer != 0 {
            continue;
        }
        for t in 0..usize::from(sheet[0]) {
            let line = std::str::from_utf8(&text[LINE * (t + 1)..][..LINE]).expect("text");
            let column = |from: usize, width: usize| line[from..from + width].trim_start();
            let height = |text: &str| match text {
                "never" => 2_147_483_647,
                digits => digits.parse::<u32>().expect("digits"),
            };
            let payee = match column(7, 9) {
                "Alice" => 0,
                "Bob" => 1,
                "contract" => 2,
                "-" => 255,
                other => panic!("{other}"),
            };
            let mut row = vec![column(3, 4).parse::<u8>().expect("digits"), payee];
            let values = [column(16, 8), column(24, 16), column(40, 16)].map(height);
            row.extend(values.iter().flat_map(|value| value.to_le_bytes()));
            never += usize::from(column(40, 16) == "never");
            assert_eq!(column(0, 3), t.to_string());
            assert_eq!(row, report[ROW * t..][..OLDER_ROW]);
            assert_eq!(&line[56..], "                \n");
        }
    }
    assert!(never > 1_000);
}
