//! What document 001's model checks, and a fair ending, in all careful positions of the SASwap sheet at 1 block per day, by the model.

use std::collections::BTreeMap;
use swap_tests::adversary::Graph;
use swap_tests::compare::Game;
use swap_tests::model::faults::Faults;
use swap_tests::model::invariants::{self, aborted, successful, timed_out};
use swap_tests::model::position::Position;

/// The names of what is false in a position.
fn broken(game: &Game, position: &Position) -> Vec<&'static str> {
    [
        invariants::false_on_any_sheet(&game.sheet, &game.setup, position),
        invariants::false_under_care(&game.sheet, position),
        invariants::unfair(&game.sheet, &game.setup, position),
    ]
    .concat()
}

/// Whether a position is successful, aborted and timed out.
fn endings(position: &Position) -> [bool; 3] {
    [successful(position), aborted(position), timed_out(position)]
}

/// The positions, and those that are successful, aborted and timed out: nothing is false in any, and no step undoes an ending.
fn counts(stealth: u8) -> [usize; 4] {
    let game = Game::saswap(1, 2, stealth);
    let graph = Graph::of(&game);
    let mut ends = vec![[false; 3]; graph.edges.len()];
    for position in graph.positions() {
        assert_eq!(broken(&game, position), [""; 0], "{position:?}");
        ends[graph.number(position)] = endings(position);
    }
    for (from, edges) in graph.edges.iter().enumerate() {
        for edge in edges {
            let kept = |k: usize| !ends[from][k] || ends[edge.to][k];
            assert!((0..3).all(kept), "{from} to {}", edge.to);
        }
    }
    let ended = |k: usize| ends.iter().filter(|ends| ends[k]).count();
    let counts = [ends.len(), ended(0), ended(1), ended(2)];
    println!("stealth {stealth}: {counts:?}");
    counts
}

#[test]
fn without_stealth() {
    assert_eq!(counts(0), [3_468, 301, 118, 42]);
}

#[test]
fn with_stealth() {
    assert_eq!(counts(1), [7_696, 489, 164, 48]);
}

/// What is false, and in how many positions, where a line of the rules is broken or the conduct is another.
fn false_ones(game: &Game) -> BTreeMap<&'static str, usize> {
    let graph = Graph::of(game);
    let mut counts = BTreeMap::new();
    for name in graph
        .positions()
        .flat_map(|position| broken(game, position))
    {
        *counts.entry(name).or_insert(0) += 1;
    }
    println!("{counts:?}");
    counts
}

/// Alice shares success while Bob has locked nothing: he takes coin A, and she has nothing to take.
#[test]
fn success_shared_in_phase_2() {
    let mut game = Game::saswap(1, 2, 0);
    game.setup.faults = Faults {
        success_in_phase_2: true,
        ..Faults::NONE
    };
    let expected = BTreeMap::from([
        (
            "coin A paid to Bob: Alice can take coin B, or the swap has timed out",
            504,
        ),
        ("success is shared in phase 3 alone", 1_684),
    ]);
    assert_eq!(false_ones(&game), expected);
}

/// Under loose conduct one party can take both coins, and spend_refund_1_bob can be sent.
#[test]
fn loose_conduct() {
    let expected = BTreeMap::from([
        ("NoTransactionsRemaining_iff_NotTimedOut", 143),
        ("NoUnexpectedTransactions", 124),
        (
            "both coins paid out: successful or aborted, one coin each",
            143,
        ),
        (
            "coin A paid to Alice: Bob can take coin B if it is locked",
            144,
        ),
        (
            "coin A paid to Bob: Alice can take coin B, or the swap has timed out",
            38,
        ),
    ]);
    assert_eq!(false_ones(&Game::saswap(1, 1, 0)), expected);
}
