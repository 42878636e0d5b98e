//! The built library against the model in many rounds of walks and cases, with fixed seeds. The example `compare` goes on
//! with any seed.

use swap_tests::calls::ENGINE;
use swap_tests::rounds;

/// Half of the rounds; each half has every refusal and every kind of step.
fn half(first: usize) {
    let tally = rounds::rounds(ENGINE, 1, first..first + 512);
    println!("{tally}");
    assert!(tally.steps >= 500_000);
    assert!(tally.accepted.iter().all(|&count| count > 0));
    tally.assert_every_refusal();
}

#[test]
fn first_half() {
    half(0);
}

#[test]
fn second_half() {
    half(512);
}
