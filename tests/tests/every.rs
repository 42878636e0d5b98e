//! Every position of the SASwap sheet at 1 block per day, careful, up to 9 blocks, by the built library and the model.

use swap_tests::compare::Game;
use swap_tests::every;

/// The positions of one stealth; in each of them every step with its fields in range is put to both.
fn positions(stealth: u8) -> usize {
    let tally = every::positions(&Game::saswap(1, 2, stealth), 9);
    println!("stealth {stealth}: {tally}");
    tally.positions
}

#[test]
fn without_stealth() {
    assert_eq!(positions(0), 6_957);
}

#[test]
fn with_stealth() {
    assert_eq!(positions(1), 17_784);
}
