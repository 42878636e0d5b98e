//! The check of block lists of any length: time by entries, up to 10 MB.

use crate::clock::least;
use crate::table::{head, ratio, row, three, whole};
use crate::works;
use std::hint::black_box;
use swap_tests::engine;
use swap_tests::model::{block_list, sheet};

/// A row of the table: a list that gets this refusal from both.
fn list_row(name: &str, sheet: &[u8], setup: &[u8], list: &[u8], refusal: u32) {
    let call = |call: fn(&[u8], &[u8], &[u8]) -> u32| {
        move || assert_eq!(call(sheet, setup, black_box(list)), refusal << 16)
    };
    let times = least(
        5,
        [
            &mut call(engine::blocks),
            &mut call(block_list::check_number),
        ],
    );
    let [library, model] = times.map(|time| time / (list.len() / 4) as f64);
    let cells = [
        whole(list.len() / 4),
        three(library),
        three(model),
        ratio(library, model),
    ];
    row(name, &cells);
}

/// All transactions of a chain of 32 in each of so many blocks: fields and order are right, and the ledger refuses a second
/// confirmation.
fn repeated(blocks: u16) -> Vec<u8> {
    let block = |block: u16| {
        let [low, high] = block.to_le_bytes();
        (0..32).flat_map(move |t| [t, if t == 31 { 0 } else { 2 }, low, high])
    };
    (1..=blocks).flat_map(block).collect()
}

pub fn rates() {
    let columns = ["entries", "library", "(a)", "to (a)"];
    head("Long block lists", "Nanoseconds an entry.", &columns);
    let (saswap, setup) = (sheet::saswap(3), [3, 0, 0, 1]);
    for entries in [25_000, 250_000, 2_500_000] {
        let mut list = [0, 2, 1, 0].repeat(entries - 1);
        list.extend([0, 0, 1, 0]);
        let name = "SASwap, the last entry's fields alone are wrong (29)";
        list_row(name, &saswap, &setup, &list, 29);
    }
    let (chain, setup, _) = works::chain(32, 0);
    for blocks in [1_000, 10_000] {
        let name = "chain of 32, fields and order are right, not the ledger's (31)";
        list_row(name, &chain, &setup, &repeated(blocks), 31);
    }
}
