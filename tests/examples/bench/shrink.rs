//! How long the library's shrink takes, by steps of the journal.

use crate::clock::least;
use crate::table::{head, row, three, whole};
use crate::works;
use std::hint::black_box;
use swap_tests::calls::FAST;
use swap_tests::engine;
use swap_tests::random::Case;
use swap_tests::slow::{apart, rivals, since_parent, slow, slowest, waiting};

/// How often a call is timed. The least processor time counts.
const TURNS: usize = 2;

/// The part that the rounds leave, by runs of the fast version, how many there are, and the steps that their tries take, each
/// from the position before the step that is tried up to the first one that is refused. A step that stands beside the same one, which
/// could not go, is not tried.
fn tries((sheet, setup, journal): &Case) -> (Vec<u8>, usize, usize) {
    let whole = (FAST.run)(sheet, setup, journal);
    let number = whole >> 16 << 16;
    let mut part = journal[..4 * (whole & 0xffff) as usize + 4].to_vec();
    let (mut rounds, mut tried) = (0, 0);
    loop {
        rounds += 1;
        let before = part.len();
        let mut at = 0;
        let mut went = true;
        while at + 4 < part.len() {
            if !went && part[at - 4..at] == part[at..at + 4] {
                at += 4;
                continue;
            }
            let without = [&part[..at], &part[at + 4..]].concat();
            let answer = (FAST.run)(sheet, setup, &without);
            let accepted = 4 * (answer & 0xffff) as usize;
            tried += (accepted.min(without.len() - 4) - at) / 4 + 1;
            went = answer == number + (without.len() / 4 - 1) as u32;
            match went {
                true => part = without,
                false => at += 4,
            }
        }
        if part.len() == before {
            return (part, rounds, tried);
        }
    }
}

/// A row of the table. The part is the one that single runs give.
fn shrink_row(name: &str, case: &Case) {
    let (sheet, setup, journal) = case;
    let (part, rounds, tried) = tries(case);
    let mut output = [0; 4_096];
    let [time] = least(
        TURNS,
        [&mut || {
            let answer = engine::shrink(sheet, setup, black_box(journal), &mut output);
            assert_eq!(answer as usize, part.len() / 4);
        }],
    );
    assert_eq!(output[..part.len()], part);
    let mut cells = [journal.len() / 4, part.len() / 4, rounds, tried]
        .map(whole)
        .to_vec();
    cells.push(three(time / 1e6));
    row(name, &cells);
}

/// A swap, empty blocks up to so many steps, and a step of no kind: every other step can go.
fn all_go(steps: usize) -> Case {
    let (sheet, setup, mut journal) = works::swap(2, steps - 1);
    journal.extend([0; 4]);
    (sheet, setup, journal)
}

pub fn rates() {
    let columns = ["steps", "left", "rounds", "steps tried", "milliseconds"];
    let unit = "Steps tried: of each try, up to the first refused one.";
    head("Shrink", unit, &columns);
    for steps in [100, 400, 1_024] {
        shrink_row("SASwap careful, all can go", &all_go(steps));
    }
    for steps in [100, 400, 1_024] {
        shrink_row("a chain of 30, one a round", &slow(30, steps - 34));
    }
    for blocks in [6, 8] {
        let name = format!("a chain of 30 locked since the parent, {blocks} blocks apart");
        shrink_row(&name, &since_parent(blocks));
    }
    for levels in [2, 4, 8] {
        let name = format!("{levels} waiting below far-locked rivals, and such a chain");
        shrink_row(&name, &waiting(levels, 8));
    }
    for few in [2, 10] {
        let name = format!("{few} waiting, and {} that go", 30 - few);
        shrink_row(&name, &apart(few, 30 - few, 1_024));
    }
    shrink_row(
        "3 waiting with rivals, and 25 that go",
        &rivals(3, 25, 1_024),
    );
    for steps in [512, 768, 1_024] {
        shrink_row("18 waiting, and 12 that go", &slowest(32, steps));
    }
    for transactions in [4, 8, 16] {
        let name = format!("the same of {transactions}");
        shrink_row(&name, &slowest(transactions, 1_024));
    }
}
