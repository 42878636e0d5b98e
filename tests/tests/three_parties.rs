//! Slip 10: sheets of three. Every call of the built library against the model's, on sheets that are sound and damaged and with
//! buffers of every sort; and what a sheet of two answers stays.

use std::collections::BTreeMap;
use swap_tests::calls::{Call, Inputs, ENGINE};
use swap_tests::compare::{Game, Tally};
use swap_tests::engine;
use swap_tests::model::journal;
use swap_tests::model::setup::Setup;
use swap_tests::model::sheet::{self, THREE};
use swap_tests::model::slips::Slips;
use swap_tests::model::{calls, desk, open, step, CAROL};
use swap_tests::older;
use swap_tests::random::{self, Case, Manner, Random, MINE, SHAPES};
use swap_tests::requests::{by_library, by_model, Request, Version};

/// The rule before Slip 10: the first byte is n, and the parties are Alice and Bob.
const OLDER: Slips = Slips {
    three_parties: false,
    ..Slips::ALL
};
/// The bytes on either side of a lent buffer.
const GUARD: usize = 17;
/// The steps of a journal, at most.
const STEPS: usize = 60;
/// An opening that pays any of the three.
const SMALLEST: [u8; 12] = [129, 1, 0, 1, 0, 0, 255, 7, 1, 0, 0, 0];

// Sheets and setups.

/// The refusals 1 to 8, each with its neighbours.
const SHEETS: [(&[u8], u32); 24] = [
    (&[], 1),
    (&[129], 1),
    (&[129, 1, 0, 1, 0], 1),
    (&[128, 1, 0, 1, 0], 1),
    (&[127, 1, 0, 1, 0], 2),
    (&[128, 1, 0, 1, 0, 0], 2),
    (&[161, 1, 0, 1, 0, 0], 2),
    (&[255, 1, 0, 1, 0, 0], 2),
    (&[129, 0, 0, 0, 0, 0], 3),
    (&[129, 9, 0, 0, 0, 0], 3),
    (&[129, 1, 2, 0, 0, 0], 3),
    (&[129, 1, 0, 0, 2, 0], 3),
    (&[129, 1, 0, 0, 0, 2], 3),
    (&[129, 1, 0, 1, 0, 0], 4),
    // 5 + 6n bytes, and 6 + 6n of a sheet of two
    (&[129, 1, 0, 1, 0, 0, 255, 7, 1, 0, 0], 4),
    (&[1, 1, 0, 1, 0, 0, 255, 3, 1, 0, 0, 0], 4),
    (&[129, 1, 0, 1, 0, 0, 0, 7, 1, 0, 0, 0], 5),
    (&[129, 1, 0, 1, 0, 0, 255, 8, 1, 0, 0, 0], 6),
    (&[1, 1, 0, 1, 0, 255, 4, 1, 0, 0, 0], 6),
    (&[129, 1, 0, 1, 0, 0, 255, 7, 0, 0, 0, 0], 6),
    (&[129, 1, 0, 1, 0, 0, 255, 7, 1, 0, 2, 1], 7),
    (&[129, 1, 0, 1, 0, 0, 255, 0, 1, 0, 0, 0], 8),
    (&SMALLEST, 0),
    (&[129, 1, 0, 0, 0, 1, 255, 4, 1, 0, 0, 0], 0),
];

#[test]
fn sheets_by_the_model() {
    for (bytes, number) in SHEETS {
        assert_eq!(calls::check(bytes), number, "{bytes:?}");
    }
}

#[test]
fn sheets_by_the_library() {
    for (bytes, number) in SHEETS {
        assert_eq!(engine::check(bytes), number * 65_536, "{bytes:?}");
    }
}

/// Every length of a sheet, and every value of every byte.
#[test]
fn lengths_and_bytes_of_sheets() {
    let mut random = Random::new(100);
    let mut answers = [0; 9];
    let mut compare = |bytes: &[u8]| {
        let number = calls::check(bytes);
        assert_eq!(engine::check(bytes), number * 65_536, "{bytes:?}");
        answers[number as usize] += 1;
    };
    for (n, s) in [(1, 1), (9, 3), (32, 8), (32, 5)] {
        let shape = random.pick(&SHAPES);
        let sound = random::ring_of(&mut random, n, s, shape);
        for length in 0..=sound.len() {
            compare(&sound[..length]);
        }
        for place in 0..sound.len() {
            let mut bytes = sound.clone();
            for value in 0..=255 {
                bytes[place] = value;
                compare(&bytes);
            }
        }
        for more in 1..=12 {
            compare(&[&sound[..], &vec![0; more]].concat());
        }
    }
    println!("sheets of three by refusal: {answers:?}");
    assert!(answers.iter().all(|&count| count > 0));
}

/// The setups 9, 32 and 10 in their order, with any conduct and stealth.
fn setup_refusal(three: bool, blocks: u16, conduct: u8, stealth: u8) -> u32 {
    match (blocks, three, conduct, stealth) {
        (0 | 1_001.., ..) => 9,
        (_, true, 1 | 2, _) => 32,
        (_, _, 0, 0 | 1) => 0,
        _ => 10,
    }
}

/// Every call's number for a setup is this one, or that of a later test where the setup is sound.
fn assert_setups(version: Version) {
    for (sheet, three) in [
        (&SMALLEST[..], true),
        (&[1, 1, 0, 1, 0, 255, 3, 1, 0, 0, 0], false),
    ] {
        for (blocks, conduct) in [0u16, 1, 3, 1_000, 1_001]
            .into_iter()
            .flat_map(|blocks| (0..=255).map(move |conduct| (blocks, conduct)))
        {
            for stealth in [0, 1, 2, 32, 255] {
                let [low, high] = blocks.to_le_bytes();
                let setup = [low, high, conduct, stealth];
                let number = setup_refusal(three, blocks, conduct, stealth);
                setup_in_every_call(version, sheet, &setup, number);
            }
        }
    }
}

/// The calls that have a setup, each with all later tests unmet: a journal of three bytes, a wrong list, a wrong mask, a step
/// of no bytes, and no buffer.
fn setup_in_every_call(version: Version, sheet: &[u8], setup: &[u8; 4], number: u32) {
    let inputs = Inputs {
        sheet,
        setup,
        journal: &[3, 0, 0],
    };
    let step = vec![];
    let (count, size) = (7, 9);
    let requests = [
        (Request::Four(Call::Run), 24),
        (Request::Four(Call::List), 24),
        (Request::Four(Call::Report), 24),
        (Request::Page, 24),
        (Request::Outage { blocks: 1 }, 24),
        (Request::Timelocks { base: 0 }, 25),
        (
            Request::Blocks {
                list: vec![9, 9, 0],
            },
            29,
        ),
        (
            Request::Earliest {
                mask: 2,
                dests: vec![],
            },
            33,
        ),
        (Request::Ask { step: step.clone() }, 24),
        (Request::Commit { step, count, size }, 24),
        (Request::Shrink, 24),
    ];
    for (request, later) in requests {
        let expected = if number == 0 { later } else { number };
        let answer = version(&request, &inputs, &mut []);
        assert_eq!(answer, expected * 65_536, "{request:?} {inputs:?}");
    }
    // The desk writes it as the swap's own, count 0.
    let bundle = desk::bundle(&[(setup.to_vec(), vec![3, 0, 0])]);
    let mut entry = [170; 8];
    assert_eq!(version(&Request::Desk { bundle }, &inputs, &mut entry), 0);
    let expected = if number == 0 { 24 } else { number };
    assert_eq!(entry, [expected as u8, 0, 0, 0, 0, 0, 0, 0], "{inputs:?}");
}

#[test]
fn setups_by_the_model() {
    assert_setups(by_model);
}

#[test]
fn setups_by_the_library() {
    assert_setups(by_library);
}

// A small ring, by hand.

/// A coin of Alice's, 0, that Carol can take at once, 1, or Bob or Carol with Bob's signature a day after it, 2. Each party holds a
/// signature of its own.
const RING: [u8; 24] = [
    131, 3, 0, 1, 2, 4, 255, 0, 1, 0, 0, 4, 4, 0, 0, 6, 2, 0, 0, 0, 0, 0, 2, 1,
];
/// Alice locks the coin in block 1; Carol takes it by a bump, since the next block is her last.
const STEPS_OF_RING: [[u8; 4]; 6] = [
    [3, 0, 0, 2],
    [5, 2, 0, 2],
    MINE,
    [3, 3, 1, 3],
    [7, 2, 1, 2],
    MINE,
];
/// The open steps after the first block: Alice's, Bob's, Carol's, the miner's.
const OPEN: [[u8; 4]; 12] = [
    [1, 0, 0, 2],
    [2, 0, 0, 1],
    [2, 0, 0, 3],
    [1, 1, 2, 1],
    [1, 1, 2, 3],
    [2, 1, 1, 0],
    [2, 1, 1, 3],
    [1, 3, 1, 3],
    [2, 3, 2, 0],
    [2, 3, 2, 1],
    [3, 3, 1, 3],
    MINE,
];
/// Steps that are refused in a fresh ring.
const REFUSED: [([u8; 4], u32); 12] = [
    ([2, 2, 0, 3], 11),
    ([2, 3, 2, 2], 11),
    ([2, 3, 2, 3], 11),
    ([2, 3, 3, 0], 11),
    ([1, 4, 0, 2], 11),
    ([1, 2, 1, 3], 11),
    ([1, 3, 1, 0], 11),
    ([3, 0, 1, 3], 11),
    ([6, 3, 255, 2], 11),
    ([2, 3, 1, 0], 13),
    ([3, 3, 1, 3], 15),
    ([3, 3, 0, 2], 16),
];

/// A request's answer after the first so many steps, in a buffer of so many bytes.
fn of_ring(version: Version, request: Request, steps: &[[u8; 4]], room: usize) -> (u32, Vec<u8>) {
    let journal = steps.concat();
    let inputs = Inputs {
        sheet: &RING,
        setup: &[1, 0, 0, 0],
        journal: &journal,
    };
    let mut output = vec![0; room];
    (version(&request, &inputs, &mut output), output)
}

fn assert_small_ring(version: Version) {
    let run = |steps: &[[u8; 4]]| of_ring(version, Request::Four(Call::Run), steps, 0).0;
    assert_eq!(run(&STEPS_OF_RING), 6);
    for (step, number) in REFUSED {
        assert_eq!(run(&[step]), number * 65_536, "{step:?}");
    }
    let list = of_ring(version, Request::Four(Call::List), &STEPS_OF_RING[..3], 48);
    assert_eq!(list, (12, OPEN.concat()));
    let (number, page) = of_ring(version, Request::Page, &STEPS_OF_RING, 4 * 73);
    let page = String::from_utf8(page).expect("text");
    let line = "  1   4    Carol       2               0               2                \n";
    assert_eq!(number, 0);
    assert!(page.contains(line), "{page}");
}

#[test]
fn small_ring_by_the_model() {
    assert_small_ring(by_model);
}

#[test]
fn small_ring_by_the_library() {
    assert_small_ring(by_library);
}

/// A secret that one party shows serves the other two, and a signature that it shares serves for that payee alone.
#[test]
fn secrets_serve_all_three() {
    // three coins as openings that pay, each with the secret, number 3, which is Alice's alone
    let sheet = [
        131, 4, 8, 9, 2, 4, 255, 1, 9, 0, 255, 2, 10, 0, 255, 4, 12, 0, 0, 0, 0, 0, 0, 0,
    ];
    let run = |steps: &[[u8; 4]]| {
        let answer = calls::run_number(&sheet, &[1, 0, 0, 0], &steps.concat());
        (answer >> 16, answer & 0xffff)
    };
    for (step, other) in [([3, 1, 1, 1], [3, 3, 2, 3]), ([3, 3, 2, 3], [3, 1, 1, 1])] {
        assert_eq!(run(&[step]), (16, 0));
        assert_eq!(run(&[[3, 0, 0, 0], step, other]), (0, 3));
        assert_eq!(run(&[[2, 0, 3, step[1]], step, other]), (0, 3));
        assert_eq!(run(&[[2, 0, 3, step[1]], other]), (16, 1));
    }
}

// Sheets of two stay.

/// The check of a sheet differs from the older rule's where the first byte is 128 or more, and nowhere else.
fn assert_check_as_before(bytes: &[u8]) -> bool {
    let (older, now) = (sheet::check_by(OLDER, bytes), calls::check(bytes));
    let announced = bytes.first().is_some_and(|&first| first >= THREE);
    match announced {
        true => assert_eq!(older, if bytes.len() < 5 { 1 } else { 2 }, "{bytes:?}"),
        false => assert_eq!(older, now, "{bytes:?}"),
    }
    announced
}

#[test]
fn checks_of_two_as_before() {
    let mut random = Random::new(101);
    let mut announced = 0;
    for _ in 0..40_000 {
        let mut bytes = random::sheet(&mut random);
        assert!(!assert_check_as_before(&bytes));
        assert_eq!(sheet::read_by(OLDER, &bytes), sheet::read(&bytes));
        random::damage(&mut random, &mut bytes);
        announced += usize::from(assert_check_as_before(&bytes));
        if let Some(first) = bytes.first_mut() {
            *first ^= THREE;
        }
        announced += usize::from(assert_check_as_before(&bytes));
    }
    assert!(announced > 30_000, "{announced}");
}

/// Every four bytes with small numbers, among them Carol's.
fn small_steps(n: u8) -> impl Iterator<Item = [u8; 4]> {
    let fields = move || (0..=4).flat_map(move |party| (0..=4).map(move |to| (party, to)));
    let pairs = move || {
        (0..=n)
            .chain([255])
            .flat_map(move |t| fields().map(move |f| (t, f)))
    };
    (0..=8).flat_map(move |kind| pairs().map(move |(t, (party, to))| [kind, party, t, to]))
}

/// On sheets of two every step, list and report is what it was by the older rule.
#[test]
fn steps_of_two_as_before() {
    let mut random = Random::new(102);
    let (mut steps, mut accepted) = (0, 0);
    for turn in 0..60 {
        let game = match turn % 4 {
            0 | 1 => random::any_game(&mut random),
            2 => random::saswap_game(&mut random, 0),
            _ => random::saswap_game(&mut random, 1 + turn / 4 % 2),
        };
        let game = Game::new(game);
        let by_older = older::by(&game, OLDER);
        for course in older::walk(&mut random, &game, 12) {
            let position = &course.position;
            let refusal =
                |setup: &Setup, step: &[u8; 4]| step::refusal(&game.sheet, setup, position, step);
            for step in small_steps(game.sheet.count()) {
                let number = refusal(&game.setup, &step);
                assert_eq!(number, refusal(&by_older, &step), "{step:?}");
                let names_carol = step[1] == CAROL || step[3] == CAROL;
                assert!(number == 11 || !names_carol, "{step:?}");
                steps += 1;
                accepted += usize::from(number == 0);
            }
            let lists = [&game.setup, &by_older].map(|s| open::steps(&game.sheet, s, position));
            assert_eq!(lists[0], lists[1]);
            let replay = |setup| journal::play(&game.sheet, setup, &course.accepted);
            assert_eq!(replay(&game.setup), replay(&by_older));
        }
    }
    println!("{steps} steps on sheets of two by both rules, {accepted} accepted");
    assert!(accepted > 1_000);
}

// The four calls on sheets of three.

#[test]
fn walks() {
    let mut random = Random::new(103);
    let mut tally = Tally::of(ENGINE);
    for number in 0..256 {
        let (n, s) = (number % 32 + 1, number / 32 % 8 + 1);
        let shape = SHAPES[(number / 32 + number) % 4];
        let sheet = random::ring_of(&mut random, n as u8, s as u8, shape);
        let blocks_per_day = random::blocks_per_day(&mut random);
        let setup = random::setup_of(&mut random, blocks_per_day, 0);
        let manner = Manner {
            leap: 12,
            ..random::manner(&mut random, 0)
        };
        tally.walk(&mut random, &Game::new((sheet, setup)), manner, 20);
    }
    println!("{tally}");
    assert!(tally.accepted.iter().all(|&count| count > 0));
}

/// The smallest ring with 10,000 blocks, or one more.
fn last_blocks(blocks: usize) -> Case {
    let steps = [[3, 0, 0, 0], [5, 2, 0, 2]].concat();
    let journal = [steps, MINE.repeat(blocks)].concat();
    (SMALLEST.to_vec(), vec![1, 0, 0, 0], journal)
}

#[test]
fn cases_of_every_refusal() {
    let mut random = Random::new(104);
    let mut tally = Tally::of(ENGINE);
    let numbers: Vec<u32> = (1..=22).chain([24, 32]).collect();
    for turn in 0..4_000 {
        let case = random::ring_case(&mut random, STEPS);
        tally.case(&mut random, &case);
        let number = numbers[turn % numbers.len()];
        let case = random::led_ring_case(&mut random, STEPS, number);
        tally.case(&mut random, &case);
    }
    for blocks in [10_000, 10_001] {
        tally.case(&mut random, &last_blocks(blocks));
    }
    println!("{tally}");
    tally.assert_every_refusal_of_three();
}

/// Every byte of every step, in positions with few steps before them.
#[test]
fn bytes_of_steps() {
    let mut random = Random::new(105);
    let mut tally = Tally::of(ENGINE);
    for (n, s, shape) in [(2, 2, 0), (5, 3, 1), (6, 2, 2), (4, 1, 3)] {
        let sheet = random::ring_of(&mut random, n, s, SHAPES[shape]);
        let game = Game::new((sheet, vec![1, 0, 0, 1]));
        for course in older::walk(&mut random, &game, 6).into_iter().step_by(3) {
            tally.bytes_of_steps(&mut random, &game, &course);
        }
    }
    println!("{tally}");
}

/// 32 openings that pay any, each with one signature that all three hold; the other 7 signatures are Alice's alone.
#[test]
fn largest_list() {
    let mut sheet = vec![THREE + 32, 8, 0, 255, 1, 1];
    sheet.extend([255, 7, 1, 0].repeat(32));
    sheet.extend([0; 2 * 32]);
    let setup = vec![1, 0, 0, 1];
    let mut output = [0; 1_988];
    let count = calls::list_number(&sheet, &setup, &[], &mut output);
    assert_eq!(count, 15 * 32 + 2 * 7);
    assert_eq!(engine::list(&sheet, &setup, &[], &mut output), count);
    let mut tally = Tally::of(ENGINE);
    tally.case(&mut Random::new(106), &(sheet, setup, vec![]));
}

// All calls on sheets of three.

/// How often each number below 40 was answered, by call.
type Answers = BTreeMap<&'static str, [usize; 40]>;

/// One request to the library and to the model: the same number and the same bytes, also on either side of the buffer.
fn compare(
    answers: &mut Answers,
    random: &mut Random,
    request: &Request,
    case: &Case,
    room: usize,
) {
    let lent = request.buffer(case, random.bytes(room));
    let mut ours = [random.bytes(GUARD), lent, random.bytes(GUARD)].concat();
    let mut theirs = ours.clone();
    let within = GUARD..ours.len() - GUARD;
    let inputs = Inputs::of(case);
    let answer = by_library(request, &inputs, &mut ours[within.clone()]);
    let expected = by_model(request, &inputs, &mut theirs[within]);
    assert_eq!(answer, expected, "{request:?}, {room} bytes, {inputs:?}");
    assert_eq!(ours, theirs, "{request:?}, {room} bytes, {inputs:?}");
    answers.entry(request.name()).or_insert([0; 40])[(answer >> 16) as usize] += 1;
}

/// A request with buffers that are exact, one byte short, one more, long and empty.
fn compare_buffers(answers: &mut Answers, random: &mut Random, request: &Request, case: &Case) {
    let exact = request.needed(case);
    for room in [exact, exact.saturating_sub(1), exact + 1, exact + 40, 0] {
        compare(answers, random, request, case, room);
    }
}

/// Damages sheet, setup or journal in five of sixteen turns.
fn damage(random: &mut Random, turn: usize, (sheet, setup, journal): &mut Case) {
    match turn % 16 {
        0 => random::break_sheet(random, sheet, turn as u32 / 16 % 8 + 1),
        1 => random::damage(random, sheet),
        2 => random::damage(random, setup),
        3 => setup[2] = random.below(4) as u8,
        4 => random::damage(random, journal),
        _ => {}
    }
}

/// All fourteen calls on cases by this maker, damaged in part: the same answers, and every refusal of each call met.
fn every_call(seed: u64, make: impl Fn(&mut Random) -> Case, three: bool) {
    let mut random = Random::new(seed);
    let mut answers = Answers::new();
    for turn in 0..3_000 {
        let mut case = make(&mut random);
        let (sheet, setup) = random::read(&case.0, &case.1);
        damage(&mut random, turn, &mut case);
        for request in random::every(&mut random, &sheet, &setup, &case) {
            compare_buffers(&mut answers, &mut random, &request, &case);
        }
    }
    for (call, counts) in &answers {
        let met: Vec<(usize, usize)> = counts.iter().copied().enumerate().collect();
        let met: Vec<_> = met.into_iter().filter(|&(_, count)| count > 0).collect();
        println!("{call}: {met:?}");
    }
    assert_every_refusal(&answers, three);
}

/// The refusals of each call's own, beside the sheet's and the setup's; 32 is of sheets of three alone.
fn assert_every_refusal(answers: &Answers, three: bool) {
    let own: [(&str, &[usize]); 14] = [
        ("check", &[]),
        ("run", &[11, 13, 14, 15, 16, 17, 24]),
        ("list", &[11, 13, 14, 15, 16, 17, 24, 25]),
        ("report", &[11, 13, 14, 15, 16, 17, 24, 25]),
        ("page", &[24, 25]),
        ("outage", &[24, 25]),
        ("slack", &[24, 25]),
        ("timelocks", &[25, 26, 27]),
        ("desk", &[25, 28]),
        ("blocks", &[29, 30, 31]),
        ("earliest", &[25, 33, 34]),
        ("ask", &[11, 13, 14, 15, 16, 17, 24]),
        ("commit", &[11, 13, 14, 15, 16, 17, 24, 25, 35]),
        ("shrink", &[24, 25, 37]),
    ];
    assert_eq!(answers.len(), own.len());
    for (call, numbers) in own {
        let with_setup = !["check", "desk"].contains(&call);
        let setups: &[usize] = match (with_setup, three) {
            (false, _) => &[],
            (true, false) => &[9, 10],
            (true, true) => &[9, 10, 32],
        };
        for &number in (0..9)
            .collect::<Vec<_>>()
            .iter()
            .chain(setups)
            .chain(numbers)
        {
            assert!(answers[call][number] > 0, "{call} {number}");
        }
    }
}

#[test]
fn every_call_of_three() {
    every_call(107, |random| random::ring_front(random, STEPS), true);
}

#[test]
fn every_call_of_two() {
    let make = |random: &mut Random| {
        let game = random::game(random);
        random::front(random, game, STEPS)
    };
    every_call(111, make, false);
}
