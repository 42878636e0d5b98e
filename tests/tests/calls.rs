//! The built library's four calls against the model's, on cases of every sort and every refusal.

use swap_tests::calls::ENGINE;
use swap_tests::compare::{Game, Tally};
use swap_tests::engine;
use swap_tests::model::journal::{self, MOST_BYTES};
use swap_tests::model::sheet;
use swap_tests::random::{self, Random, MINE};
use swap_tests::rounds;
use swap_tests::samples::{FIRST_SHARES, LOCK_A, LOCK_B};

/// Journals whose length is at or near the most: accepted steps, then the same ones again, which are refused.
fn lengths(tally: &mut Tally, random: &mut Random) {
    let game = Game::saswap(3, 0, 1);
    let lock_a = [[3, 0, 0, 2], [5, 2, 0, 2], MINE];
    for length in MOST_BYTES - 6..=MOST_BYTES + 6 {
        let (sheet, setup, mut journal) = game.case(&lock_a);
        journal.extend(lock_a.concat().iter().cycle().take(length - journal.len()));
        tally.case(random, &(sheet, setup, journal));
    }
}

#[test]
fn every_refusal() {
    let mut random = Random::new(21);
    let mut tally = Tally::of(ENGINE);
    rounds::cases(&mut tally, &mut random, 10_200);
    lengths(&mut tally, &mut random);
    println!("{tally}");
    assert!(tally.journals >= 20_000);
    tally.assert_every_refusal();
}

/// 32 openings that pay either, each with one signature that both hold; Alice holds the other 7 alone.
#[test]
fn largest_list() {
    let mut sheet = vec![32, 8, 0, 255, 1];
    sheet.extend([255, 3, 1, 0].repeat(32));
    sheet.extend([0; 2 * 32]);
    let setup = vec![1, 0, 0, 1];
    let mut output = [0; 1_060];
    assert_eq!(engine::list(&sheet, &setup, &[], &mut output), 263);
    let mut tally = Tally::of(ENGINE);
    tally.case(&mut Random::new(22), &(sheet, setup, vec![]));
}

/// Setups with every blocks per day, every conduct, every stealth, and other lengths.
fn setups() -> impl Iterator<Item = Vec<u8>> {
    let blocks = |blocks: u16, conduct| {
        let [low, high] = blocks.to_le_bytes();
        vec![low, high, conduct, 0]
    };
    let open = (0..=u16::MAX).map(move |number| blocks(number, 0));
    let careful = (0..=1_100).map(move |number| blocks(number, 2));
    let others = (0..=255).flat_map(|byte| [[2, 0, byte, 1], [3, 0, 2, byte], [3, 0, 0, byte]]);
    let lengths = (0..8).map(|length| vec![1; length]);
    open.chain(careful)
        .chain(others.map(Vec::from))
        .chain(lengths)
}

#[test]
fn every_setup() {
    let mut random = Random::new(24);
    let mut tally = Tally::of(ENGINE);
    for blocks_per_day in 1..=3 {
        for setup in setups() {
            let case = (sheet::saswap(blocks_per_day), setup, vec![]);
            tally.run(&mut random, &case);
        }
    }
    println!("{tally}");
    let [_, run, ..] = tally.answers;
    assert!(run[0] > 0 && run[9] > 0 && run[10] > 0);
}

/// Every byte of every step, in positions with few steps before them.
#[test]
fn bytes_of_steps() {
    let mut random = Random::new(23);
    let mut tally = Tally::of(ENGINE);
    let steps = [&FIRST_SHARES[..], &LOCK_A, &LOCK_B].concat();
    let games = [
        Game::saswap(3, 0, 1),
        Game::saswap(3, 1, 0),
        Game::saswap(3, 2, 1),
        Game::new(random::any_game(&mut random)),
    ];
    for game in games {
        for count in [0, 8] {
            let course = journal::play(&game.sheet, &game.setup, &steps[..count]);
            tally.bytes_of_steps(&mut random, &game, &course);
        }
    }
    println!("{tally}");
}
