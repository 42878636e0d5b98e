//! The built library's check of a sheet against the model's.

use swap_tests::engine;
use swap_tests::model::{calls, sheet};
use swap_tests::random::{self, Random};

/// The sheet of P10.
const P10: [u8; 17] = [2, 2, 0, 1, 2, 255, 0, 1, 0, 0, 2, 2, 0, 0, 0, 1, 1];

/// How often each refusal was answered.
#[derive(Default)]
struct Answers {
    counts: [usize; 9],
}

impl Answers {
    /// Compares one sheet.
    fn compare(&mut self, bytes: &[u8]) {
        let answer = engine::check(bytes);
        assert_eq!(answer, calls::check_number(bytes), "sheet {bytes:?}");
        assert_eq!(answer % 65_536, 0, "sheet {bytes:?}");
        self.counts[(answer / 65_536) as usize] += 1;
    }

    fn total(&self) -> usize {
        self.counts.iter().sum()
    }
}

/// Sheets of every size to damage: SASwap's three, P10's, one transaction, 32 of them, and random ones.
fn sound_sheets() -> Vec<Vec<u8>> {
    let mut random = Random::new(1);
    let mut sheets = vec![
        sheet::saswap(1),
        sheet::saswap(2),
        sheet::saswap(3),
        P10.to_vec(),
    ];
    sheets.push(vec![1, 1, 0, 1, 0, 255, 1, 1, 0, 0, 0]);
    for (n, s, shape) in [
        (32, 8, random::Shape::Deep),
        (32, 4, random::Shape::Wide),
        (7, 3, random::Shape::Coins),
    ] {
        sheets.push(random::sheet_of(&mut random, n, s, shape));
    }
    for bytes in &sheets {
        assert_eq!(calls::check(bytes), 0, "sheet {bytes:?}");
    }
    sheets
}

#[test]
fn table_examples() {
    let examples: [(&[u8], u32); 9] = [
        (&[], 1),
        (&[0, 1, 0, 0, 0], 2),
        (&[1, 9, 0, 0, 0], 3),
        (&[1, 1, 0, 1, 0], 4),
        (&[1, 1, 0, 1, 0, 0, 1, 1, 0, 0, 0], 5),
        (&[1, 1, 0, 1, 0, 255, 1, 0, 0, 0, 0], 6),
        (&[1, 1, 0, 1, 0, 255, 1, 1, 0, 2, 1], 7),
        (&[1, 1, 0, 1, 0, 255, 0, 1, 0, 0, 0], 8),
        (&P10, 0),
    ];
    for (bytes, refusal) in examples {
        assert_eq!(engine::check(bytes), refusal * 65_536, "sheet {bytes:?}");
        assert_eq!(calls::check(bytes), refusal, "sheet {bytes:?}");
    }
}

#[test]
fn every_single_byte_damaged() {
    let mut answers = Answers::default();
    for mut bytes in sound_sheets() {
        for place in 0..bytes.len() {
            let sound = bytes[place];
            for value in 0..=255 {
                bytes[place] = value;
                answers.compare(&bytes);
            }
            bytes[place] = sound;
        }
    }
    println!(
        "single bytes damaged, answers by refusal: {:?}",
        answers.counts
    );
    assert!(answers.counts[2..].iter().all(|&count| count > 0));
}

#[test]
fn every_length() {
    let mut answers = Answers::default();
    for bytes in sound_sheets() {
        for length in 0..=bytes.len() {
            answers.compare(&bytes[..length]);
        }
        for more in 1..=12 {
            let mut longer = bytes.clone();
            longer.resize(bytes.len() + more, 0);
            answers.compare(&longer);
        }
    }
    println!("every length, answers by refusal: {:?}", answers.counts);
    assert!(answers.counts[1] > 0 && answers.counts[4] > 0 && answers.counts[0] > 0);
}

#[test]
fn random_bytes() {
    let mut random = Random::new(2);
    let mut answers = Answers::default();
    for _ in 0..100_000 {
        let length = random.below(220);
        let mut bytes = random.bytes(length);
        // a head in range more often than chance would have it
        if random.percent(70) && bytes.len() >= 2 {
            bytes[0] = 1 + bytes[0] % 32;
            bytes[1] = 1 + bytes[1] % 8;
        }
        answers.compare(&bytes);
    }
    println!("random bytes, answers by refusal: {:?}", answers.counts);
    assert_eq!(answers.total(), 100_000);
}

#[test]
fn random_damage() {
    let mut random = Random::new(3);
    let mut answers = Answers::default();
    for _ in 0..100_000 {
        let mut bytes = random::sheet(&mut random);
        answers.compare(&bytes);
        random::damage(&mut random, &mut bytes);
        answers.compare(&bytes);
    }
    println!("random damage, answers by refusal: {:?}", answers.counts);
    assert!(answers.counts.iter().all(|&count| count > 0));
}
