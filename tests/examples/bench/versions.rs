//! The four calls by the library and by the versions that it is measured by.

use crate::clock::{measure, Buffer, Work};
use crate::table::{head, ratio, row, three, whole};
use crate::works;
use swap_tests::calls::{Call, Calls, Inputs, BY_VALUE, COPIES, ENGINE, FAST, MODEL};
use swap_tests::random::Case;

/// The bytes of the longest list.
const LONGEST: usize = 1_060;

/// (c) without any test or effect: a run, which accepts every step.
const BARE: Calls = Calls {
    run: COPIES,
    ..BY_VALUE
};

/// The nanoseconds of one call.
struct Times {
    library: f64,
    model: f64,
    lent: f64,
    by_value: f64,
    /// Of a run by (c) without any test or effect.
    bare: Option<f64>,
}

fn times(call: Call, case: &Case, buffer: Buffer) -> Times {
    let inputs = Inputs::of(case);
    let by = |version: Calls| move |output: &mut [u8]| version.answer(call, &inputs, output);
    let (model, library, lent, by_value, bare) =
        (by(MODEL), by(ENGINE), by(FAST), by(BY_VALUE), by(BARE));
    let mut works: Vec<Work> = vec![&model, &library, &lent, &by_value];
    if call == Call::Run {
        works.push(&bare);
    }
    let times = measure(&works, &[0; LONGEST], buffer);
    Times {
        library: times[1],
        model: times[0],
        lent: times[2],
        by_value: times[3],
        bare: times.get(4).copied(),
    }
}

/// The library's time as ratios.
fn ratios(times: &Times) -> [String; 3] {
    [times.model, times.lent, times.by_value].map(|other| ratio(times.library, other))
}

/// The steps of a case's journal, all of them accepted.
fn steps(case: &Case) -> usize {
    let steps = case.2.len() / 4;
    let answer = MODEL.answer(Call::Run, &Inputs::of(case), &mut []);
    assert_eq!(answer as usize, steps, "a journal with a refused step");
    steps
}

/// The same sheet and setup with an empty journal.
fn empty((sheet, setup, _): &Case) -> Case {
    (sheet.clone(), setup.clone(), vec![])
}

/// The row of a run: a step's share of the time, and what a step takes beyond the run of an empty journal.
fn run_row(name: &str, case: &Case) {
    let steps = steps(case);
    let [all, none] = [case, &empty(case)].map(|case| times(Call::Run, case, Buffer::Kept));
    let share = |time: f64| three(time / steps as f64);
    let more = |of: fn(&Times) -> f64| three((of(&all) - of(&none)) / steps as f64);
    let mut cells = vec![whole(steps)];
    cells.extend([all.library, all.model, all.lent, all.by_value].map(share));
    cells.push(share(all.bare.expect("a run")));
    cells.extend(ratios(&all));
    cells.extend([
        more(|times| times.library),
        more(|times| times.lent),
        more(|times| times.by_value),
    ]);
    row(name, &cells);
}

fn run_head(title: &str) {
    let columns = [
        "steps",
        "library",
        "(a)",
        "(b)",
        "(c)",
        "copies",
        "to (a)",
        "to (b)",
        "to (c)",
        "more: library",
        "more: (b)",
        "more: (c)",
    ];
    head(title, "Nanoseconds a step.", &columns);
}

pub fn runs() {
    run_head("Run");
    run_row("SASwap open, one swap", &works::swap(0, 0));
    run_row("SASwap careful, one swap", &works::swap(2, 0));
    run_row("SASwap careful, and empty blocks", &works::swap(2, 4_096));
    run_row("busy chain of 32", &works::chain(32, 0));
    run_row("chain of 32, and empty blocks", &works::chain(32, 666));
    run_row("chain of 32, and empty blocks", &works::chain(32, 4_096));
    run_row("31 rivals, and empty blocks", &works::rivals(32, 4_096));
}

pub fn growth() {
    run_head("Run, by steps and by transactions");
    for steps in [512, 2_048, 10_000] {
        run_row("SASwap careful, and empty blocks", &works::swap(2, steps));
    }
    for steps in [512, 2_048, 10_000] {
        run_row("chain of 32, and empty blocks", &works::chain(32, steps));
    }
    for count in [2, 8, 32] {
        run_row(&format!("chain of {count}"), &works::chain(count, 1_024));
        run_row(
            &format!("an opening and its children, {count} in all"),
            &works::rivals(count, 1_024),
        );
    }
}

fn call_row(name: &str, call: Call, case: &Case, buffer: Buffer) {
    let times = times(call, case, buffer);
    let mut cells = vec![whole(steps(case))];
    cells.extend([times.library, times.model, times.lent, times.by_value].map(three));
    cells.extend(ratios(&times));
    row(name, &cells);
}

/// Check, list and report.
pub fn calls() {
    let columns = [
        "steps", "library", "(a)", "(b)", "(c)", "to (a)", "to (b)", "to (c)",
    ];
    head("Check, list and report", "Nanoseconds a call.", &columns);
    let chain = works::chain(32, 0);
    for (name, case) in [
        ("check, SASwap", works::fresh(0)),
        ("check, chain of 32", empty(&chain)),
    ] {
        call_row(name, Call::Check, &case, Buffer::Kept);
    }
    for (name, call) in [("list", Call::List), ("report", Call::Report)] {
        let works = [
            ("SASwap careful", works::fresh(2)),
            ("SASwap careful", works::swap(2, 0)),
            ("SASwap careful", works::swap(2, 4_096)),
            ("chain of 2", empty(&works::chain(2, 0))),
            ("chain of 32", empty(&chain)),
            ("chain of 32", works::chain(32, 666)),
            ("chain of 32", works::chain(32, 4_096)),
            ("32 openings", works::openings()),
        ];
        for (work, case) in works {
            call_row(&format!("{name}, {work}"), call, &case, Buffer::Kept);
        }
        let cleared = format!("{name}, 32 openings, buffer cleared before");
        call_row(&cleared, call, &works::openings(), Buffer::Cleared);
    }
}
