//! Slip 4: nLockTime and nSequence. The built library's call against the model's, on cases of every sort; and the numbers that it
//! writes against Bitcoin's rule on heights.

use swap_tests::engine;
use swap_tests::model::setup::{self, Setup};
use swap_tests::model::sheet::{self, Lock, OPENING};
use swap_tests::model::timelocks::{self as model, Block};
use swap_tests::random::{self, Random};

/// What every buffer holds before a call.
const FILL: u8 = 170;

/// How often each refusal was answered, none under 0.
type Answers = [usize; 28];

/// One call of both, on buffers of one length: the same number and the same bytes.
fn compare(answers: &mut Answers, sheet: &[u8], setup: &[u8], base: u32, length: usize) {
    let mut expected = vec![FILL; length];
    let mut output = expected.clone();
    let number = model::number(sheet, setup, base, &mut expected);
    let answer = engine::timelocks(sheet, setup, base, &mut output);
    let inputs = format!("sheet {sheet:?} setup {setup:?} base {base} length {length}");
    assert_eq!(answer, number, "{inputs}");
    assert_eq!(output, expected, "{inputs}");
    answers[(answer / 65_536) as usize] += 1;
}

/// Buffers that are empty, a byte short, exact, a byte and some bytes long.
fn buffers(answers: &mut Answers, sheet: &[u8], setup: &[u8], base: u32) {
    let exact = 8 * usize::from(sheet.first().copied().unwrap_or(0));
    for length in [0, exact.saturating_sub(1), exact, exact + 1, exact + 9] {
        compare(answers, sheet, setup, base, length);
    }
}

/// The days that make this product with so many blocks per day.
fn days_of(product: u64, blocks_per_day: u16) -> Option<u8> {
    let days = product / u64::from(blocks_per_day);
    let exact = product % u64::from(blocks_per_day) == 0;
    u8::try_from(days).ok().filter(|&days| exact && days > 0)
}

/// Blocks per day and days with this product.
fn with_product(product: u64) -> Vec<(u16, u8)> {
    let pairs = (1..=1_000).map(|blocks| (blocks, days_of(product, blocks)));
    pairs
        .filter_map(|(blocks, days)| days.map(|days| (blocks, days)))
        .collect()
}

fn setup_of(blocks_per_day: u16) -> Vec<u8> {
    let [low, high] = blocks_per_day.to_le_bytes();
    vec![low, high, 0, 0]
}

/// An opening that is a contract transaction and a child with this lock pair.
fn pair(lock: [u8; 2]) -> Vec<u8> {
    let mut sheet = vec![2, 2, 0, 1, 2];
    sheet.extend([OPENING, 0, 1, 0, 0, 2, 2, 0]);
    sheet.extend([0, 0]);
    sheet.extend(lock);
    sheet
}

/// A sheet and a setup of any sort, with locks that can be long.
fn game(random: &mut Random) -> (Vec<u8>, Vec<u8>) {
    let (mut sheet, mut setup) = random::game(random);
    if setup[2] == 0 {
        if random.percent(50) {
            setup[..2].copy_from_slice(&(random.between(1, 1_000) as u16).to_le_bytes());
        }
        let n = usize::from(sheet[0]);
        for lock in sheet[5 + 4 * n..].chunks_exact_mut(2) {
            if lock[0] != 0 && random.percent(10) {
                lock[1] = random.between(1, 255) as u8;
            }
        }
    }
    (sheet, setup)
}

/// Bases: small, like today's heights, about the threshold, largest, any.
fn base(random: &mut Random) -> u32 {
    match random.below(6) {
        0 => random.below(10) as u32,
        1 => random.between(700_000, 1_000_000) as u32,
        2 => 500_000_000 - random.below(1_000) as u32,
        3 => 500_000_000 - random.below(260_000) as u32,
        4 => u32::MAX - random.below(3) as u32,
        _ => random.number() as u32,
    }
}

#[test]
fn every_refusal() {
    let mut random = Random::new(41);
    let mut answers = [0; 28];
    for round in 0..20_000 {
        let (mut sheet, mut setup) = game(&mut random);
        match random.below(12) {
            0 => random::break_sheet(&mut random, &mut sheet, round % 8 + 1),
            1 => random::damage(&mut random, &mut sheet),
            2 => random::damage(&mut random, &mut setup),
            3 => setup[2] = random.byte(),
            _ => {}
        }
        let base = base(&mut random);
        buffers(&mut answers, &sheet, &setup, base);
    }
    println!("calls by refusal: {answers:?}");
    for number in (0..=10).chain(25..=27) {
        assert!(answers[number] >= 100, "{number}: {}", answers[number]);
    }
    assert!(answers[11..25].iter().all(|&count| count == 0));
}

#[test]
fn bytes_of_any_sort() {
    let mut random = Random::new(42);
    let mut answers = [0; 28];
    for length in 0..=200 {
        for _ in 0..20 {
            let sheet = random.bytes(length);
            let length = random.below(8);
            let setup = random.bytes(length);
            buffers(&mut answers, &sheet, &setup, random.number() as u32);
        }
    }
    assert!(answers[1] > 0 && answers[2] > 0 && answers[3] > 0);
}

/// 26: a value of 65,535 passes, one of 65,536 doesn't, by whatever days and blocks; the setup's own check knows nothing of it.
#[test]
fn relative_edge() {
    let mut output = [0; 16];
    for (value, refusal) in [(65_534, 0), (65_535, 0), (65_536, 26), (65_537, 26)] {
        let products = with_product(value - 1);
        assert!(!products.is_empty(), "no days and blocks for {value}");
        for (blocks, days) in products {
            let (sheet, setup) = (pair([2, days]), setup_of(blocks));
            for base in [0, 499_999_999, u32::MAX] {
                let answer = engine::timelocks(&sheet, &setup, base, &mut output);
                assert_eq!(answer, refusal * 65_536, "{value} of {blocks} and {days}");
            }
            if refusal == 0 {
                assert_eq!(output[8..12], [0; 4]);
                assert_eq!(output[12..], (value as u32).to_le_bytes());
            }
        }
    }
}

/// 27: a height of 499,999,999 passes, 500,000,000 doesn't, nor does a sum beyond four bytes; only an absolute lock asks.
#[test]
fn absolute_edge() {
    let mut output = [0; 16];
    for (blocks, days) in [(1, 1), (7, 3), (1_000, 255)] {
        let height = u32::from(blocks) * u32::from(days);
        let (sheet, setup) = (pair([1, days]), setup_of(blocks));
        let mut answer = |base| engine::timelocks(&sheet, &setup, base, &mut output) / 65_536;
        assert_eq!(answer(499_999_999 - height), 0);
        for base in [500_000_000 - height, 500_000_000, u32::MAX] {
            assert_eq!(answer(base), 27);
        }
        assert_eq!(output[8..12], 499_999_999u32.to_le_bytes());
    }
    for lock in [[0, 0], [2, 1]] {
        let answer = engine::timelocks(&pair(lock), &setup_of(1), u32::MAX, &mut output);
        assert_eq!(answer, 0);
    }
}

/// 26 for all transactions before 27 for any, and 25 last.
#[test]
fn order() {
    let sheet = |days: u8| {
        let mut sheet = vec![3, 2, 0, 1, 2];
        sheet.extend([OPENING, 1, 1, 0, OPENING, 0, 1, 0, 1, 2, 2, 0]);
        sheet.extend([1, 1, 0, 0, 2, days]);
        sheet
    };
    let answer = |days, conduct, base, length: usize| {
        let setup = [1, 1, conduct, 0];
        engine::timelocks(&sheet(days), &setup, base, &mut vec![0; length]) / 65_536
    };
    assert_eq!(answer(255, 3, 500_000_000, 0), 10);
    assert_eq!(answer(255, 0, 500_000_000, 0), 26);
    assert_eq!(answer(254, 0, 500_000_000, 0), 27);
    assert_eq!(answer(254, 0, 0, 23), 25);
    assert_eq!(answer(254, 0, 0, 24), 0);
}

/// The conducts that take the SASwap sheet give the numbers that open conduct gives, whatever stealth is.
#[test]
fn conduct_has_no_part() {
    for blocks in [1u16, 2, 3, 144, 1_000] {
        let sheet = sheet::saswap(blocks);
        let [low, high] = blocks.to_le_bytes();
        let call = |conduct, stealth| {
            let mut output = [0; 120];
            let answer =
                engine::timelocks(&sheet, &[low, high, conduct, stealth], 800_000, &mut output);
            assert_eq!(answer, 0);
            output
        };
        for conduct in 0..=2 {
            assert_eq!(call(conduct, 0), call(0, 0));
            assert_eq!(call(conduct, 1), call(0, 0));
        }
    }
}

/// What was held to Bitcoin's rule.
#[derive(Default)]
struct Held {
    admitted: usize,
    locked: usize,
}

/// Parents and blocks about the lock's end: every parent from 1 to 3 and one later, each block about it and about the parent's own.
fn places(random: &mut Random, lock: Lock, setup: &Setup) -> Vec<(i64, i64)> {
    let product = |days: u8| i64::from(days) * i64::from(setup.blocks_per_day);
    let later = random.between(4, 10_000) as i64;
    let around = |p: i64| match lock {
        Lock::None => p,
        Lock::Absolute { days } => product(days),
        Lock::SinceParent { days } => p + product(days),
    };
    [1, 2, 3, later]
        .into_iter()
        .flat_map(|p| {
            let near = (-3..=3).map(move |step| around(p) + step);
            near.chain(p..p + 3).map(move |b| (p, b))
        })
        .filter(|&(p, b)| p <= b)
        .collect()
}

/// The library's numbers of one transaction admit exactly the blocks that the model's lock does, at any times.
fn hold(held: &mut Held, random: &mut Random, lock: Lock, setup: &Setup, base: u32, row: &[u8]) {
    let number = |at: usize| u32::from_le_bytes(row[at..at + 4].try_into().expect("four bytes"));
    let (lock_time, sequence) = (number(0), number(4));
    for (p, b) in places(random, lock, setup) {
        let mut block = |number: i64| Block {
            height: i64::from(base) + number,
            time: random.pick(&[0, 499_999_999, 500_000_000, 1_700_000_000, 4_294_967_295]),
        };
        let (parent, at) = (block(p), block(b));
        let reached = model::lock_reached(lock, setup, p, b);
        let admitted = model::admitted(2, lock_time, sequence, parent, at);
        assert_eq!(
            admitted, reached,
            "{lock:?} {setup:?} base {base} {parent:?} {at:?}"
        );
        match reached {
            true => held.admitted += 1,
            false => held.locked += 1,
        }
    }
}

#[test]
fn bitcoin_admits_what_the_lock_does() {
    let mut random = Random::new(43);
    let mut held = Held::default();
    for _ in 0..4_000 {
        let (sheet, setup) = game(&mut random);
        let base = base(&mut random);
        let mut output = vec![0; 8 * usize::from(sheet[0])];
        if engine::timelocks(&sheet, &setup, base, &mut output) != 0 {
            continue;
        }
        let read = sheet::read(&sheet).expect("a sheet");
        let setup = setup::read(&sheet, &setup).expect("a setup");
        for (transaction, row) in read.transactions.iter().zip(output.chunks_exact(8)) {
            hold(&mut held, &mut random, transaction.lock, &setup, base, row);
        }
    }
    let Held { admitted, locked } = held;
    println!("{admitted} blocks admitted, {locked} locked, by Bitcoin's rule and by the model");
    assert!(admitted >= 100_000 && locked >= 100_000);
}

/// Without 26 and 27, and with version 1, Bitcoin would admit a block too early.
#[test]
fn limits_and_version_are_needed() {
    let at = |height| Block {
        height,
        time: 1_700_000_000,
    };
    // 255 days of 257 blocks: the low 16 bits of 65,536 are 0.
    assert!(model::admitted(2, 0, 65_536, at(1), at(1)));
    // Height 500,000,000 would be a time.
    assert!(model::admitted(2, 500_000_000, 0xffff_fffe, at(1), at(1)));
    assert!(!model::admitted(2, 499_999_999, 0xffff_fffe, at(1), at(1)));
    // BIP 68 asks for version 2.
    assert!(model::admitted(1, 0, 145, at(1), at(1)));
    assert!(!model::admitted(2, 0, 145, at(1), at(145)));
    assert!(model::admitted(2, 0, 145, at(1), at(146)));
}
