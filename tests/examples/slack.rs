//! Searches slack: what is found of each sort, by stealth, and a journal for the first of each. `small`: all positions of random small
//! sheets, against the game. `saswap`: the same of the SASwap sheet at 1 block per day. `walks`: walks on any sheets, on rings and on
//! the SASwap sheet under open and loose conduct. `rows`: what the model answers for each folder of a sheet, a setup and a journal.
//!
//! Usage: slack small|walks SEED GAMES, slack saswap CONDUCT STEALTH, or slack rows FOLDER..

use std::collections::BTreeSet;
use std::path::Path;
use swap_tests::adversary::Graph;
use swap_tests::compare::Game;
use swap_tests::model::sheet::Head;
use swap_tests::random::{self, Random};
use swap_tests::slack::row::{self, Row, ROW};
use swap_tests::slack::search::{self, Counts, Form, Sort};

/// Positions to a game, at most.
const MOST: usize = 800;
/// Turns to a walk.
const TURNS: usize = 12;
/// The sorts that are no failure.
const PLAIN: [Sort; 5] = [
    Sort::Questions,
    Sort::Dangers,
    Sort::FalseAlarms,
    Sort::Zero,
    Sort::Below,
];

/// What was found, by stealth, and of which sorts a journal is printed.
#[derive(Default)]
struct Found {
    games: usize,
    counts: [Counts; 2],
    shown: BTreeSet<(Sort, bool)>,
}

impl Found {
    fn add(&mut self, game: &Game, counts: &Counts) {
        self.counts[usize::from(game.setup.stealth)].join(counts);
    }

    fn show(&mut self, game: &Game, sort: Sort, side: u8, steps: impl FnOnce() -> Vec<[u8; 4]>) {
        if !PLAIN.contains(&sort) && self.shown.insert((sort, game.setup.stealth)) {
            let (sheet, setup, journal) = game.case(&steps());
            println!("{sort:?} for {side}: sheet {sheet:?}, setup {setup:?}, journal {journal:?}");
        }
    }

    fn graph(&mut self, game: &Game, graph: &Graph) {
        self.games += 1;
        for &side in game.sheet.parties {
            let counts = search::counts(game, graph, side, Form::Whole);
            for (&sort, &(side, n)) in &counts.first {
                self.show(game, sort, side, || search::journal(game, graph, n));
            }
            self.add(game, &counts);
        }
    }

    fn small(&mut self, random: &mut Random) {
        let game = search::small_game(random);
        let graph = game.as_ref().and_then(|game| Graph::of_any(game, MOST));
        if let (Some(game), Some(graph)) = (game, graph) {
            self.graph(&game, &graph);
        }
    }

    fn walk(&mut self, random: &mut Random, turn: usize) {
        let game = Game::new(match turn % 4 {
            0 => random::any_game(random),
            1 => random::ring_game(random),
            conduct => random::saswap_game(random, conduct as u8 - 2),
        });
        let (counts, journals) = search::walk(random, &game, TURNS);
        for (sort, (side, steps)) in journals {
            self.show(&game, sort, side, || steps);
        }
        self.games += 1;
        self.add(&game, &counts);
    }

    fn print(&self) {
        println!("{} games", self.games);
        for (stealth, counts) in self.counts.iter().enumerate() {
            println!("stealth {stealth}: {:?}", counts.counts);
        }
    }
}

/// The model's rows for the files of a folder.
fn print_rows(folder: &str) {
    let read = |name: &str| std::fs::read(Path::new(folder).join(name)).unwrap_or_default();
    let mut output = [0; 3 * ROW];
    let files = ["sheet.bin", "setup.bin", "journal.bin"].map(read);
    let number = row::number(&files[0], &files[1], &files[2], &mut output);
    println!("{folder}: refusal {}", number >> 16);
    let parties = Head::of(&files[0]).parties.len();
    for row in output.chunks_exact(ROW).take(parties).map(Row::read) {
        println!("  {row:?}");
    }
}

fn search(kind: &str, seed: &str, games: &str) {
    let mut random = Random::new(seed.parse().expect("a number"));
    let mut found = Found::default();
    for turn in 0..games.parse().expect("a number") {
        match kind {
            "walks" => found.walk(&mut random, turn),
            _ => found.small(&mut random),
        }
    }
    found.print();
}

fn saswap(conduct: &str, stealth: &str) {
    let [conduct, stealth] = [conduct, stealth].map(|word| word.parse().expect("a number"));
    let game = Game::saswap(1, conduct, stealth);
    let mut found = Found::default();
    found.graph(&game, &Graph::of(&game));
    found.print();
}

fn main() {
    let words: Vec<String> = std::env::args().skip(1).collect();
    let words: Vec<&str> = words.iter().map(String::as_str).collect();
    match &words[..] {
        ["rows", folders @ ..] => folders.iter().for_each(|folder| print_rows(folder)),
        [kind @ ("small" | "walks"), seed, games] => search(kind, seed, games),
        ["saswap", conduct, stealth] => saswap(conduct, stealth),
        _ => panic!("slack small|walks SEED GAMES, saswap CONDUCT STEALTH, rows FOLDER.."),
    }
}
