//! The calendar's rule against an adversary: the model searches everything that the other party and the miner can do
//! while a side stands still, in all careful positions of the SASwap sheet at 1 block per day up to 9 blocks.

use swap_tests::adversary::{Fate, Graph};
use swap_tests::calendar::rule::Swap;
use swap_tests::compare::Game;
use swap_tests::every;
use swap_tests::model::{heights, open, ALICE, BOB};
use swap_tests::slack::row::Row;

/// The outages in days, which have one block here.
const OUTAGES: [u32; 3] = [1, 2, 3];

/// What is counted of one side and one outage: dangers, those without a warning, warnings without a danger; and the
/// dangers that a warning by the report's deadlines misses.
#[derive(Clone, Copy, Debug, Default, PartialEq, Eq)]
struct Counts {
    dangers: usize,
    missed: usize,
    false_alarms: usize,
    missed_by_report: usize,
}

impl Counts {
    fn add(&mut self, danger: bool, warned: bool, by_report: bool) {
        self.dangers += usize::from(danger);
        self.missed += usize::from(danger && !warned);
        self.false_alarms += usize::from(warned && !danger);
        self.missed_by_report += usize::from(danger && !by_report);
    }
}

/// Whether it would by the deadlines of the report, which say nothing before the parent is confirmed.
fn warns_by_report(swap: &Swap, blocks: u32, side: u8) -> bool {
    let mined = swap.position.mined;
    let covers = |t: u8| {
        let deadline = heights::deadline(swap.sheet, swap.setup, swap.position, t);
        let live = !swap.position.is_confirmed(t) && !heights::dead(swap.sheet, swap.position, t);
        let pays = swap.can_pay(t) >> side & 1 == 1;
        live && pays && (mined + 1..=mined + blocks).contains(&deadline)
    };
    (0..swap.sheet.count()).any(covers)
}

/// The counts of both sides, by outage after so many blocks, and the number of positions.
fn counts(game: &Game, graph: &Graph, wait: u32) -> ([[Counts; 3]; 2], usize) {
    let dangers = [ALICE, BOB].map(|side| {
        let fate = Fate::of(graph, side);
        OUTAGES.map(|blocks| fate.dangers(graph, side, wait, blocks))
    });
    let mut counts = [[Counts::default(); 3]; 2];
    let positions = every::walk(game, 9, |course| {
        let swap = Swap::of(game, course);
        let number = graph.number(&course.position);
        let rows = [ALICE, BOB].map(|side| Row::of(swap.sheet, swap.setup, swap.position, side));
        for (side, i) in [ALICE, BOB]
            .into_iter()
            .flat_map(|s| (0..3).map(move |i| (s, i)))
        {
            let danger = dangers[usize::from(side)][i][number];
            // the calendar warns, or tells that no payout is secured
            let warned = !rows[usize::from(side)].keeps(wait + OUTAGES[i]);
            let by_report = warns_by_report(&swap, wait + OUTAGES[i], side);
            assert!(
                !danger || warned,
                "{} blocks: {:?}",
                OUTAGES[i],
                course.accepted
            );
            counts[usize::from(side)][i].add(danger, warned, by_report);
        }
    });
    (counts, positions)
}

fn print(stealth: u8, wait: u32, counts: &[[Counts; 3]; 2], positions: usize) {
    for (name, counts) in ["Alice", "Bob"].iter().zip(counts) {
        for (count, days) in counts.iter().zip(OUTAGES) {
            println!("stealth {stealth}, {name}, outage of {days} days after {wait} blocks, {positions} positions: {count:?}");
        }
    }
}

/// The dangers of Alice, by outage; Bob has none. No danger is without a warning, and the report's deadlines miss some.
fn dangers(stealth: u8) -> ([usize; 3], usize) {
    let game = Game::saswap(1, 2, stealth);
    let (counts, positions) = counts(&game, &Graph::of(&game), 0);
    print(stealth, 0, &counts, positions);
    let [alice, bob] = counts;
    assert!(alice.iter().chain(&bob).all(|count| count.missed == 0));
    assert!(bob.iter().all(|count| count.dangers == 0));
    assert!(alice[2].missed_by_report > 0);
    (alice.map(|count| count.dangers), positions)
}

#[test]
fn without_stealth() {
    assert_eq!(dangers(0), ([42, 92, 263], 6_957));
}

#[test]
fn with_stealth() {
    assert_eq!(dangers(1), ([268, 323, 575], 17_784));
}

/// Outages that begin after 1 to 3 blocks in which the side can act.
#[test]
fn later_outages() {
    for stealth in [0, 1] {
        let game = Game::saswap(1, 2, stealth);
        let graph = Graph::of(&game);
        for wait in OUTAGES {
            let (counts, positions) = counts(&game, &graph, wait);
            print(stealth, wait, &counts, positions);
            assert!(counts.iter().flatten().all(|count| count.missed == 0));
            assert!(counts[0].iter().all(|count| count.dangers > 0));
        }
    }
}

/// A position of the graph has the steps of those that are folded to it.
#[test]
fn folded_positions() {
    let game = Game::saswap(1, 2, 1);
    let graph = Graph::of(&game);
    let mut folded = 0;
    every::walk(&game, 9, |course| {
        let steps = open::steps(&game.sheet, &game.setup, &course.position);
        assert_eq!(
            steps.len(),
            graph.edges[graph.number(&course.position)].len()
        );
        folded += usize::from(course.position.mined > 7);
    });
    assert!(folded > 1_000);
}

/// Under loose and careful conduct Alice never sends a payout that needs sigBob, so none of these is hers to lose.
#[test]
fn payouts_with_the_signature_of_bob() {
    for (conduct, stealth, blocks) in [(1, 0, 5), (2, 0, 9), (2, 1, 9)] {
        let game = Game::saswap(1, conduct, stealth);
        let mut sends = [0; 2];
        every::walk(&game, blocks, |course| {
            for step in open::steps(&game.sheet, &game.setup, &course.position) {
                let sent = [3, 4].contains(&step[0]) && step[3] != 2;
                if sent && game.sheet.transaction(step[2]).needs & 2 == 2 {
                    sends[usize::from(step[1])] += 1;
                }
            }
        });
        println!("conduct {conduct}, stealth {stealth}: {sends:?} sends");
        assert!(sends[0] == 0 && sends[1] > 0);
    }
}
