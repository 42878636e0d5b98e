//! Forty swaps on one sheet: one desk call against forty run calls, both of the library.

use crate::clock::least;
use crate::table::{head, ratio, row, three};
use crate::works;
use std::hint::black_box;
use swap_tests::engine;
use swap_tests::model::desk::bundle;
use swap_tests::random::Case;

/// The swaps of a desk.
const SWAPS: usize = 40;
/// How often the two take turns. The least time of each counts.
const TURNS: usize = 201;

/// A row of the table. The two give the same answers.
fn desk_row(name: &str, (sheet, setup, journal): Case) {
    let bytes = bundle(&vec![(setup.clone(), journal.clone()); SWAPS]);
    let mut output = [0; 8 * SWAPS];
    let mut answers = [0; SWAPS];
    let times = least(
        TURNS,
        [
            &mut || assert_eq!(engine::desk(&sheet, black_box(&bytes), &mut output), 0),
            &mut || answers.fill_with(|| engine::run(&sheet, &setup, black_box(&journal))),
        ],
    );
    let word = |at: usize| u32::from_le_bytes(output[at..at + 4].try_into().expect("four bytes"));
    for (i, answer) in answers.iter().enumerate() {
        assert_eq!(word(8 * i) * 65_536 + word(8 * i + 4), *answer);
    }
    let [desk, runs] = times.map(|time| time / 1e3);
    row(name, &[three(desk), three(runs), ratio(desk, runs)]);
}

pub fn rates() {
    let columns = ["desk", "40 runs", "desk to runs"];
    head("A desk of 40 swaps in one call", "Microseconds.", &columns);
    desk_row("SASwap careful, no steps", works::fresh(2));
    desk_row("SASwap open, 16 steps each", works::swap(0, 0));
    desk_row("SASwap careful, 18 steps each", works::swap(2, 0));
    desk_row("SASwap careful, 4,096 steps each", works::swap(2, 4_096));
    desk_row("chain of 32, no steps", {
        let (sheet, setup, _) = works::chain(32, 0);
        (sheet, setup, vec![])
    });
}
