//! Prints the page of a swap by the model.
//!
//! Usage: page FOLDER, with sheet.bin, setup.bin and journal.bin

use std::path::Path;
use swap_tests::model::page;
use swap_tests::samples;

fn main() {
    let folder = std::env::args().nth(1).expect("usage: page FOLDER");
    let [sheet, setup, journal, ..] = samples::read(Path::new(&folder));
    let [sheet, setup, journal] = [sheet, setup, journal].map(|file| file.expect("a file"));
    match page::text(&sheet, &setup, &journal) {
        Ok(text) => print!("{text}"),
        Err(refusal) => eprintln!("no page: refused with {refusal}"),
    }
}
