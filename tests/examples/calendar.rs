//! Writes the calendar's sample swaps, what it has to print of them by the model, and with which exit status; then puts that
//! into the documents that show it.
//!
//! Usage: calendar FOLDER, which is examples/calendar

use std::fs;
use std::path::Path;
use swap_tests::calendar::{self, Question};
use swap_tests::samples;

fn main() -> std::io::Result<()> {
    let folder = std::env::args().nth(1).expect("usage: calendar FOLDER");
    let folder = Path::new(&folder);
    for (name, files) in samples::samples() {
        samples::write(&folder.join("samples").join(name), &files)?;
    }
    let path = folder.join("cases.txt");
    let mut text = fs::read_to_string(&path)?;
    for case in calendar::cases(&path)? {
        if let Some((expected, status)) = case.expected() {
            fs::write(folder.join("expected").join(case.file()), expected)?;
            let line = |status: i32| format!("\n{} {status}", case.name);
            for end in [" ", "\n"] {
                text = text.replace(&(line(case.status) + end), &(line(status) + end));
            }
        }
    }
    fs::write(path, text)?;
    documents(folder)
}

/// The stored outputs in the documents, and the outputs of the sample sheets in theirs.
fn documents(folder: &Path) -> std::io::Result<()> {
    let top = folder.join("../..");
    let stored = |name: &str| fs::read_to_string(folder.join(format!("expected/{name}.txt")));
    put(&top.join("README.md"), &[stored("embedded_alice")?])?;
    let document = top.join("docs/CALENDAR.md");
    put(
        &document,
        &[stored("default")?, stored("standing")?, stored("ring")?],
    )?;
    let slots = stored("embedded_slots")?;
    let said = slots.lines().filter(|line| line.contains(" outage "));
    let said: String = said.map(|line| format!("{line}\n")).collect();
    let text = fs::read_to_string(&document)?;
    let (before, rest) = text
        .split_once("$ ./calendar --slots 20\n")
        .expect("stretches");
    let (_, after) = rest.split_once("```").expect("their end");
    fs::write(
        &document,
        format!("{before}$ ./calendar --slots 20\n{said}```{after}"),
    )?;
    for entry in fs::read_dir(top.join("examples/samples"))? {
        let path = entry?.path();
        if path.is_dir() {
            let name = path
                .file_name()
                .expect("a name")
                .to_string_lossy()
                .into_owned();
            let swap = (name, samples::read(&path));
            put(
                &path.join("README.md"),
                &[calendar::text(&[swap], &Question::default()).0],
            )?;
        }
    }
    Ok(())
}

/// Puts outputs in the place of those that a document has, in their order: from the line on what is asked to that of the
/// totals.
fn put(document: &Path, outputs: &[String]) -> std::io::Result<()> {
    let mut outputs = outputs.iter();
    let mut text = String::new();
    let mut within = false;
    for line in fs::read_to_string(document)?.lines() {
        if line.starts_with("outage: ") {
            within = true;
            text += outputs.next().expect("an output for each");
        }
        if !within {
            text += &format!("{line}\n");
        }
        within = within && !line.starts_with("swaps: ");
    }
    assert_eq!(outputs.next(), None, "{document:?}");
    fs::write(document, text)
}
