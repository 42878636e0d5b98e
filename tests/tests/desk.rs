//! Document 02, Slip 7: the built library's desk against the model's and against its own single run calls.

use swap_tests::engine;
use swap_tests::model::desk::{self, bundle, MOST_SWAPS};
use swap_tests::model::sheet;
use swap_tests::random::{self, Random, MINE};
use swap_tests::samples::{FIRST_SHARES, LOCK_A, LOCK_B, P10};

/// What every buffer holds before a call.
const FILL: u8 = 170;

/// How often each number, below 100, was answered.
type Counts = [usize; 100];

/// The numbers that were answered by the call, and for a swap.
struct Tally {
    calls: Counts,
    swaps: Counts,
}

/// The four bytes from a place on, as a number.
fn number(bytes: &[u8], at: usize) -> u32 {
    u32::from_le_bytes(bytes[at..at + 4].try_into().expect("four bytes"))
}

impl Tally {
    fn new() -> Tally {
        Tally {
            calls: [0; 100],
            swaps: [0; 100],
        }
    }

    /// One call with a buffer of this length; the number.
    fn lent(&mut self, sheet: &[u8], bundle: &[u8], length: usize) -> u32 {
        let mut output = vec![FILL; length];
        let mut expected = output.clone();
        let answer = engine::desk(sheet, bundle, &mut output);
        let model = desk::desk_number(sheet, bundle, &mut expected);
        assert_eq!(answer, model, "sheet {sheet:?} bundle {bundle:?}");
        assert_eq!(output, expected, "sheet {sheet:?} bundle {bundle:?}");
        assert_eq!(answer % 65_536, 0);
        let refusal = answer / 65_536;
        self.calls[refusal as usize] += 1;
        match refusal {
            0 => self.entries(sheet, bundle, &output),
            _ => assert!(output.iter().all(|&byte| byte == FILL)),
        }
        refusal
    }

    /// Each entry is the answer of the library's own run, and the bytes after them are kept.
    fn entries(&mut self, sheet: &[u8], bundle: &[u8], output: &[u8]) {
        let swaps = desk::swaps(bundle).expect("a bundle that was accepted");
        for (i, swap) in swaps.iter().enumerate() {
            let [refusal, count] = [8 * i, 8 * i + 4].map(|at| number(output, at));
            let run = engine::run(sheet, swap.setup, swap.journal);
            assert_eq!(refusal * 65_536 + count, run, "swap {i} of {bundle:?}");
            self.swaps[refusal as usize] += 1;
        }
        assert!(output[8 * swaps.len()..].iter().all(|&byte| byte == FILL));
    }

    /// The call with buffers that fit exactly, are a byte too short, longer, and empty.
    fn case(&mut self, sheet: &[u8], bundle: &[u8]) {
        let swaps = desk::swaps(bundle).map_or(2, |swaps| swaps.len());
        for length in [8 * swaps, (8 * swaps).saturating_sub(1), 8 * swaps + 7, 0] {
            self.lent(sheet, bundle, length);
        }
    }
}

/// A sheet, and as many swaps on it, with setups of every conduct that it takes.
fn swaps(random: &mut Random, count: usize, most: usize) -> (Vec<u8>, Vec<(Vec<u8>, Vec<u8>)>) {
    let blocks_per_day = random::blocks_per_day(random);
    let saswap = random.percent(50);
    let sheet = match saswap {
        true => sheet::saswap(blocks_per_day),
        false => random::sheet(random),
    };
    let swap = |random: &mut Random| {
        let conduct = if saswap { random.below(3) as u8 } else { 0 };
        let mut setup = random::setup_of(random, blocks_per_day, conduct);
        let manner = random::manner(random, most);
        let mut journal = random::journal(random, &sheet, &setup, manner);
        match random.below(12) {
            0 => random::damage_bytes(random, &mut setup, 1),
            1 => random::damage(random, &mut journal),
            _ => {}
        }
        (setup, journal)
    };
    let swaps = (0..count).map(|_| swap(random)).collect();
    (sheet, swaps)
}

#[test]
fn random_desks() {
    let mut random = Random::new(71);
    let mut tally = Tally::new();
    for round in 0..700 {
        let count = match round % 20 {
            0 => 0,
            1 => MOST_SWAPS,
            2 => 40,
            _ => random.between(1, 9),
        };
        let (mut sheet, swaps) = swaps(&mut random, count, 40);
        tally.case(&sheet, &bundle(&swaps));
        for _ in 0..3 {
            let mut damaged = bundle(&swaps);
            random::damage(&mut random, &mut damaged);
            tally.case(&sheet, &damaged);
        }
        random::damage(&mut random, &mut sheet);
        tally.case(&sheet, &bundle(&swaps));
    }
    let total = |counts: &Counts| counts.iter().sum::<usize>();
    println!(
        "{} desk calls and {} swaps of them compared with the model and with single runs",
        total(&tally.calls),
        total(&tally.swaps)
    );
    for refusal in [0, 25, 28].into_iter().chain(1..=8) {
        assert!(tally.calls[refusal] > 0, "{refusal} of a call");
    }
    for refusal in [0, 24].into_iter().chain(9..=22) {
        assert!(tally.swaps[refusal] > 0, "{refusal} of a swap");
    }
}

/// The swaps of a desk on P10's sheet: accepted, refused by its setup, by its journal's length and at a step.
fn sample() -> Vec<(Vec<u8>, Vec<u8>)> {
    let open = vec![1, 0, 0, 0];
    let lock = LOCK_A.concat();
    vec![
        (open.clone(), lock.clone()),
        (vec![0, 0, 0, 0], lock.clone()),
        (open.clone(), lock[..7].to_vec()),
        (open.clone(), vec![]),
        (open, [&lock[..], &lock[..]].concat()),
    ]
}

#[test]
fn a_refused_swap_among_others() {
    let mut output = [FILL; 45];
    assert_eq!(engine::desk(&P10, &bundle(&sample()), &mut output), 0);
    let entries: Vec<[u32; 2]> = (0..5)
        .map(|i| [8 * i, 8 * i + 4].map(|at| number(&output, at)))
        .collect();
    assert_eq!(entries, [[0, 3], [9, 0], [24, 0], [0, 0], [14, 3]]);
    assert_eq!(output[40..], [FILL; 5]);
}

/// Every front of a bundle, and a byte more: 28 but for the whole.
#[test]
fn a_byte_short_or_long() {
    let mut tally = Tally::new();
    let whole = bundle(&sample());
    for length in 0..whole.len() {
        assert_eq!(tally.lent(&P10, &whole[..length], 40), 28, "{length} bytes");
    }
    assert_eq!(tally.lent(&P10, &whole, 40), 0);
    assert_eq!(tally.lent(&P10, &[&whole[..], &[0]].concat(), 40), 28);
}

/// Every count byte, with arrays that fit it, a byte fewer and a byte more.
#[test]
fn every_count() {
    let mut tally = Tally::new();
    for count in 0..=255u8 {
        let mut bytes = vec![count];
        bytes.extend([1, 0, 0, 0].repeat(count.into()));
        bytes.extend([0; 4].repeat(count.into()));
        let right = if count <= 64 { 0 } else { 28 };
        let room = 8 * usize::from(count);
        assert_eq!(tally.lent(&P10, &bytes, room), right, "count {count}");
        assert_eq!(tally.lent(&P10, &[&bytes[..], &[0]].concat(), room), 28);
        assert_eq!(tally.lent(&P10, &bytes[..bytes.len() - 1], room), 28);
        if (1..=64).contains(&count) {
            assert_eq!(tally.lent(&P10, &bytes, room - 1), 25);
        }
    }
}

/// Lengths whose sum is the right one in four bytes, but not as a number.
#[test]
fn lengths_beyond_four_bytes() {
    let mut tally = Tally::new();
    let lengths: [&[u32]; 6] = [
        &[u32::MAX],
        &[u32::MAX, 13],
        &[4_294_967_292, 16],
        &[u32::MAX, u32::MAX, 14],
        &[2_147_483_648, 2_147_483_648, 12],
        &[u32::MAX; 64],
    ];
    for lengths in lengths {
        let mut bytes = vec![lengths.len() as u8];
        bytes.extend([1, 0, 0, 0].repeat(lengths.len()));
        bytes.extend(lengths.iter().flat_map(|length| length.to_le_bytes()));
        for following in [0, 12, 4_096] {
            let whole = [&bytes[..], &vec![0; following]].concat();
            assert_eq!(tally.lent(&P10, &whole, 512), 28, "{lengths:?}");
        }
    }
}

/// "tested after the sheet and before any setup"; "25 .. tested after 28".
#[test]
fn order_of_the_tests() {
    let mut tally = Tally::new();
    let unset = bundle(&[(vec![0; 4], vec![0])]);
    assert_eq!(tally.lent(&P10[..16], &[], 0), 4);
    assert_eq!(tally.lent(&P10, &unset[..9], 0), 28);
    assert_eq!(tally.lent(&P10, &unset, 7), 25);
    assert_eq!(tally.lent(&P10, &unset, 8), 0);
    assert_eq!(tally.lent(&P10, &[0], 0), 0);
    assert_eq!(tally.lent(&P10, &[0, 0], 0), 28);
}

/// Journals of 65,536 bytes and more in one bundle.
#[test]
fn long_journals() {
    let mut tally = Tally::new();
    let steps = [&FIRST_SHARES[..], &LOCK_A, &LOCK_B].concat().concat();
    let journal = |length: usize| {
        let mut bytes = steps.clone();
        bytes.extend(MINE.iter().cycle().take(length - steps.len()));
        bytes
    };
    let setup = vec![3, 0, 2, 1];
    let swaps: Vec<_> = [65_536, 65_540, 65_535, steps.len()]
        .map(|length| (setup.clone(), journal(length)))
        .into();
    tally.case(&sheet::saswap(3), &bundle(&swaps));
    assert_eq!(tally.swaps[23], 2);
    assert_eq!(tally.swaps[24], 4);
}

/// The entries of a desk, by the library.
fn entries(sheet: &[u8], swaps: &[(Vec<u8>, Vec<u8>)]) -> Vec<[u8; 8]> {
    let mut output = vec![FILL; 8 * swaps.len()];
    assert_eq!(engine::desk(sheet, &bundle(swaps), &mut output), 0);
    let entry = |bytes: &[u8]| bytes.try_into().expect("eight bytes");
    output.chunks(8).map(entry).collect()
}

/// One swap's setup or journal changed leaves the others' entries; swaps in another order, the entries in that order.
#[test]
fn each_swap_for_itself() {
    let mut random = Random::new(72);
    let mut changed = 0;
    for _ in 0..300 {
        let count = random.between(2, 12);
        let (sheet, mut swaps) = swaps(&mut random, count, 30);
        let before = entries(&sheet, &swaps);
        let turn = random.below(count);
        swaps.rotate_left(turn);
        let mut turned = before.clone();
        turned.rotate_left(turn);
        assert_eq!(entries(&sheet, &swaps), turned);
        let i = random.below(count);
        let (setup, journal) = &mut swaps[i];
        match random.percent(50) || journal.is_empty() {
            true => *setup = random.bytes(4),
            false => random::damage_bytes(&mut random, journal, 3),
        }
        let mut after = entries(&sheet, &swaps);
        changed += usize::from(after[i] != turned[i]);
        after[i] = turned[i];
        assert_eq!(after, turned);
    }
    assert!(changed > 100);
}
