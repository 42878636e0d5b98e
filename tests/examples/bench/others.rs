//! The calls of the change requests, by the library and by the model, each accepted.

use crate::clock::{measure, Buffer, Work};
use crate::table::{head, ratio, row, three, whole};
use crate::works;
use swap_tests::engine;
use swap_tests::model::{asks, block_list, calls, ending, page, timelocks};
use swap_tests::random::Case;
use swap_tests::slack::row as slack_rows;

/// The longest output: a page.
const LONGEST: usize = 2_409;
/// The blocks of an outage, and the height of a swap's beginning.
const OUTAGE: u32 = 144;
const BASE: u32 = 800_000;

/// A row of the table: a call by both, from a buffer with these bytes.
fn call_row(name: &str, steps: usize, start: &[u8], library: Work, model: Work) {
    assert_eq!(model(&mut start.to_vec()) >> 16, 0, "{name} is refused");
    let times = measure(&[model, library], start, Buffer::Kept);
    let [model, library] = [times[0], times[1]];
    let cells = [
        whole(steps),
        three(library),
        three(model),
        ratio(library, model),
    ];
    row(name, &cells);
}

fn outage(name: &str, (sheet, setup, journal): &Case) {
    call_row(
        &format!("outage, {name}"),
        journal.len() / 4,
        &[0; LONGEST],
        &|output| engine::outage(sheet, setup, journal, OUTAGE, output),
        &|output| calls::outage_number(sheet, setup, journal, OUTAGE, output),
    );
}

fn slack(name: &str, (sheet, setup, journal): &Case) {
    call_row(
        &format!("slack, {name}"),
        journal.len() / 4,
        &[0; LONGEST],
        &|output| engine::slack(sheet, setup, journal, output),
        &|output| slack_rows::number(sheet, setup, journal, output),
    );
}

fn page(name: &str, (sheet, setup, journal): &Case) {
    call_row(
        &format!("page, {name}"),
        journal.len() / 4,
        &[0; LONGEST],
        &|output| engine::page(sheet, setup, journal, output),
        &|output| page::page_number(sheet, setup, journal, output),
    );
}

/// Asks for the journal's last step, and commits it to the journal before it.
fn ask_and_commit(name: &str, (sheet, setup, journal): &Case) {
    let (before, step) = journal.split_at(journal.len() - 4);
    let (count, size) = ((before.len() / 4) as u32, before.len() as u32);
    call_row(
        &format!("ask, {name}"),
        count as usize,
        &[],
        &|_| engine::ask(sheet, setup, before, step),
        &|_| asks::ask_number(sheet, setup, before, step),
    );
    let start = [before, &[0; 4]].concat();
    call_row(
        &format!("commit, {name}"),
        count as usize,
        &start,
        &|buffer| engine::commit(sheet, setup, step, count, buffer, size),
        &|buffer| asks::commit_number(sheet, setup, step, count, buffer, size),
    );
}

/// The paying transactions of this mask, each to its destination.
fn earliest(name: &str, (sheet, setup, _): &Case, mask: u32, destinations: &[u8]) {
    let to: Vec<u8> = destinations.iter().flat_map(|&to| [to, 0, 0, 0]).collect();
    call_row(
        &format!("earliest, {name}"),
        0,
        &[0; LONGEST],
        &|output| engine::earliest(sheet, setup, mask, &to, output),
        &|output| ending::write_number(sheet, setup, mask, &to, output),
    );
}

fn timelocks(name: &str, (sheet, setup, _): &Case) {
    call_row(
        &format!("timelocks, {name}"),
        0,
        &[0; LONGEST],
        &|output| engine::timelocks(sheet, setup, BASE, output),
        &|output| timelocks::number(sheet, setup, BASE, output),
    );
}

/// The list that earliest writes of this ending, which is accepted.
fn blocks(name: &str, (sheet, setup, _): &Case, mask: u32, destinations: &[u8]) {
    let to: Vec<u8> = destinations.iter().flat_map(|&to| [to, 0, 0, 0]).collect();
    let entries = ending::list(sheet, setup, mask, &to).expect("an ending that can come");
    let list = block_list::bytes(&entries);
    call_row(
        &format!("blocks, {name}, {} entries", entries.len()),
        0,
        &[],
        &|_| engine::blocks(sheet, setup, &list),
        &|_| block_list::check_number(sheet, setup, &list),
    );
}

/// SASwap's spend_B to Alice and spend_success to Bob.
const SUCCESS: (u32, [u8; 2]) = (1 << 8 | 1 << 9, [0, 1]);

pub fn rates() {
    let columns = ["steps before", "library", "(a)", "to (a)"];
    head("The other calls", "Nanoseconds a call.", &columns);
    let (fresh, swap, long) = (works::fresh(2), works::swap(2, 0), works::swap(2, 4_096));
    let chains = [2, 4, 8, 16, 32].map(|count| {
        let (sheet, setup, _) = works::chain(count, 0);
        (format!("fresh chain of {count}"), (sheet, setup, vec![]))
    });
    let chain = &chains[4].1;
    for call in [outage, slack, page] {
        for case in [&fresh, &swap, &long] {
            call("SASwap careful", case);
        }
    }
    for (name, case) in &chains {
        outage(name, case);
        slack(name, case);
    }
    page("fresh chain of 32", chain);
    outage("busy chain of 32", &works::chain(32, 0));
    slack("busy chain of 32", &works::chain(32, 0));
    for case in [&swap, &long] {
        ask_and_commit("SASwap careful", case);
    }
    ask_and_commit("busy chain of 32", &works::chain(32, 0));
    earliest("SASwap, both paid out", &fresh, SUCCESS.0, &SUCCESS.1);
    earliest("chain of 32", chain, 1 << 31, &[0]);
    timelocks("SASwap", &fresh);
    timelocks("chain of 32", chain);
    blocks("SASwap, both paid out", &fresh, SUCCESS.0, &SUCCESS.1);
    blocks("chain of 32", chain, 1 << 31, &[0]);
}
