//! Walks every position of the SASwap sheet up to a number of blocks, by the built library and the model.
//!
//! Usage: every BLOCKS_PER_DAY CONDUCT STEALTH BLOCKS

use swap_tests::compare::Game;
use swap_tests::every;

fn main() {
    let arguments: Vec<u16> = std::env::args()
        .skip(1)
        .map(|word| word.parse().expect("a number"))
        .collect();
    let [blocks_per_day, conduct, stealth, blocks] = arguments[..] else {
        panic!("usage: every BLOCKS_PER_DAY CONDUCT STEALTH BLOCKS")
    };
    let game = Game::saswap(blocks_per_day, conduct as u8, stealth as u8);
    println!("{}", every::positions(&game, u32::from(blocks)));
}
