//! Compares the built library with the model for as long as wished. The gate does the same with fixed seeds.
//!
//! Usage: compare ROUNDS SEED

use swap_tests::calls::ENGINE;
use swap_tests::rounds;

fn main() {
    let arguments: Vec<u64> = std::env::args()
        .skip(1)
        .map(|word| word.parse().expect("a number"))
        .collect();
    let [count, seed] = arguments[..] else {
        panic!("usage: compare ROUNDS SEED")
    };
    println!("{count} rounds with seed {seed}");
    println!("{}", rounds::rounds(ENGINE, seed, 0..count as usize));
}
