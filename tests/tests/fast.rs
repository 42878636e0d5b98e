//! The plain, fast version of the calls, by which the benchmark measures the library, in both its forms against the model.

use swap_tests::calls::{Calls, BY_VALUE, FAST};
use swap_tests::compare::{Game, Tally};
use swap_tests::random::{self, Random};
use swap_tests::rounds;

fn walks_and_cases(version: Calls) {
    let tally = rounds::rounds(version, 41, 0..512);
    println!("{tally}");
    assert!(tally.accepted.iter().all(|&count| count > 0));
    tally.assert_every_refusal();
}

/// Walks and cases of sheets of three.
fn three_parties(version: Calls) {
    let mut random = Random::new(43);
    let mut tally = Tally::of(version);
    for turn in 0..600 {
        let case = random::ring_case(&mut random, 60);
        tally.case(&mut random, &case);
        let number = match turn as u32 % 24 + 1 {
            23 => 32,
            number => number,
        };
        let case = random::led_ring_case(&mut random, 60, number);
        tally.case(&mut random, &case);
        if turn % 6 == 0 {
            let game = Game::new(random::ring_game(&mut random));
            let manner = random::manner(&mut random, 0);
            tally.walk(&mut random, &game, manner, 20);
        }
    }
    println!("{tally}");
    assert!(tally.answers[1][32] > 0);
    assert!(tally.accepted.iter().all(|&count| count > 0));
}

/// Cases of any sort, at times damaged, and cases that are led to each refusal; each with buffers of several lengths.
fn cases(version: Calls) {
    let mut tally = Tally::of(version);
    rounds::cases(&mut tally, &mut Random::new(42), 1_000);
    println!("{tally}");
    tally.assert_every_refusal();
}

#[test]
fn walks_and_cases_lent() {
    walks_and_cases(FAST);
}

#[test]
fn cases_lent() {
    cases(FAST);
}

#[test]
fn walks_and_cases_by_value() {
    walks_and_cases(BY_VALUE);
}

#[test]
fn cases_by_value() {
    cases(BY_VALUE);
}

#[test]
fn three_parties_lent() {
    three_parties(FAST);
}

#[test]
fn three_parties_by_value() {
    three_parties(BY_VALUE);
}
