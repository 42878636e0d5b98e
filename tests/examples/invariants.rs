//! What document 001's model checks, and a fair ending, in all careful positions of the SASwap sheet, by the model.
//!
//! Usage: invariants BLOCKS_PER_DAY

use swap_tests::adversary::Graph;
use swap_tests::compare::Game;
use swap_tests::model::invariants;

fn main() {
    let word = std::env::args()
        .nth(1)
        .expect("usage: invariants BLOCKS_PER_DAY");
    let blocks_per_day: u16 = word.parse().expect("a number");
    for stealth in [0, 1] {
        let game = Game::saswap(blocks_per_day, 2, stealth);
        let graph = Graph::of(&game);
        for position in graph.positions() {
            let broken = [
                invariants::false_on_any_sheet(&game.sheet, &game.setup, position),
                invariants::false_under_care(&game.sheet, position),
                invariants::unfair(&game.sheet, &game.setup, position),
            ]
            .concat();
            assert_eq!(broken, [""; 0], "{position:?}");
        }
        println!("stealth {stealth}: {} positions", graph.edges.len());
    }
}
