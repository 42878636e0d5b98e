//! The built library's call outage against the model's: sound and damaged inputs, buffers of every length, any number of
//! blocks, and walks with each position that they come to.

use swap_tests::compare::Game;
use swap_tests::engine;
use swap_tests::model::calls;
use swap_tests::model::journal::Course;
use swap_tests::model::outage::ROW;
use swap_tests::random::{self, Case, Manner, Random, MINE};
use swap_tests::samples::{FIRST_SHARES, LOCK_A, LOCK_B};

/// The bytes on either side of a lent buffer.
const GUARD: usize = 13;

/// What was compared, all of it equal.
struct Tally {
    rows: usize,
    /// The answers by refusal.
    answers: [usize; 26],
    /// The rows by verdict.
    verdicts: [usize; 16],
}

impl Tally {
    fn new() -> Tally {
        Tally {
            rows: 0,
            answers: [0; 26],
            verdicts: [0; 16],
        }
    }

    /// One call with a buffer of so many bytes, filled at random.
    fn call(&mut self, random: &mut Random, case: &Case, blocks: u32, length: usize) {
        let (sheet, setup, journal) = case;
        let mut buffer = random.bytes(GUARD + length + GUARD);
        let mut modelled = buffer.clone();
        let lent = &mut buffer[GUARD..GUARD + length];
        let answer = engine::outage(sheet, setup, journal, blocks, lent);
        let expected = &mut modelled[GUARD..GUARD + length];
        let number = calls::outage_number(sheet, setup, journal, blocks, expected);
        assert_eq!(answer, number, "{blocks} blocks, {length} bytes, {case:?}");
        assert_eq!(
            buffer, modelled,
            "{blocks} blocks, {length} bytes, {case:?}"
        );
        assert_eq!(answer & 0xffff, 0);
        self.answers[(answer >> 16) as usize] += 1;
    }

    /// One case, with buffers exact, one short, one more, long and empty.
    fn case(&mut self, random: &mut Random, case: &Case, blocks: u32) {
        let (sheet, setup, journal) = case;
        let rows = calls::outage_bytes(sheet, setup, journal, blocks).unwrap_or_default();
        let exact = rows.len();
        for length in [exact, exact.saturating_sub(1), exact + 1, exact + 40, 0] {
            self.call(random, case, blocks, length);
        }
        for row in rows.chunks_exact(ROW) {
            self.verdicts[usize::from(row[0])] += 1;
            self.rows += 1;
        }
    }
}

/// Blocks of an outage: none, few, about a day, near 2^31 - 1 and near 2^32.
fn blocks(random: &mut Random) -> u32 {
    let low = random.below(400) as u32;
    match random.below(8) {
        0 => random.below(2) as u32,
        1..=4 => low,
        5 => random.number() as u32,
        6 => 2_147_483_647 - 200 + low,
        _ => u32::MAX - low,
    }
}

#[test]
fn every_refusal() {
    let mut random = Random::new(61);
    let mut tally = Tally::new();
    let numbers: Vec<u32> = (1..=22).chain([24]).collect();
    for turn in 0..6_000 {
        let case = match turn % 3 {
            0 => random::led_case(&mut random, 60, numbers[turn / 3 % numbers.len()]),
            _ => random::case(&mut random, 60),
        };
        let blocks = blocks(&mut random);
        tally.case(&mut random, &case, blocks);
    }
    let steps = [&LOCK_A[..], &vec![MINE; 10_000]].concat();
    for length in [steps.len() - 1, steps.len()] {
        let case = Game::saswap(3, 0, 1).case(&steps[..length]);
        tally.case(&mut random, &case, 7);
    }
    println!("answers by refusal: {:?}", tally.answers);
    assert!(tally.answers.iter().all(|&count| count > 0));
}

/// Walks over open steps, on any sheet and on the SASwap sheet under each conduct.
#[test]
fn walks() {
    let mut random = Random::new(62);
    let mut tally = Tally::new();
    for turn in 0..400 {
        let bytes = match turn % 4 {
            0 => random::any_game(&mut random),
            conduct => random::saswap_game(&mut random, conduct as u8 - 1),
        };
        let game = Game::new(bytes);
        let manner = Manner {
            wrong: 0,
            ..random::manner(&mut random, 30)
        };
        let mut course = Course::fresh(&game.sheet);
        for _ in 0..25 {
            random::more(
                &mut random,
                &game.sheet,
                &game.setup,
                &mut course,
                &manner,
                300,
            );
            let case = game.case(&course.accepted);
            let blocks = blocks(&mut random);
            tally.case(&mut random, &case, blocks);
        }
    }
    println!(
        "{} rows compared, by verdict: {:?}",
        tally.rows, tally.verdicts
    );
    for verdict in [0, 1, 2, 4, 8, 12] {
        assert!(tally.verdicts[verdict] > 0, "no row with verdict {verdict}");
    }
}

/// 144 blocks a day, careful, both coins locked, 288 blocks mined: the soonest deadline of refund_2 is 577, which 289
/// blocks cover and 288 do not.
#[test]
fn revoke_to_come() {
    let mined = vec![MINE; 286];
    let steps = [&FIRST_SHARES[..], &LOCK_A, &LOCK_B, &mined].concat();
    let (sheet, setup, journal) = Game::saswap(144, 2, 0).case(&steps);
    let mut output = [0; 10 * 15];
    for (blocks, verdict) in [(0, 0), (288, 0), (289, 4), (300, 4), (u32::MAX, 4)] {
        assert_eq!(
            engine::outage(&sheet, &setup, &journal, blocks, &mut output),
            0
        );
        let row = &output[10 * 5..10 * 6];
        assert_eq!(row[..2], [verdict, 1]);
        assert_eq!(row[2..6], 434_u32.to_le_bytes());
        assert_eq!(row[6..], 577_u32.to_le_bytes());
    }
}
