//! The cases of `examples/calendar/cases.txt`.

use super::clock::Clock;
use super::{complaints, text, Length, Question, Start};
use crate::model::{ALICE, BOB, CAROL};
use crate::samples;
use std::path::Path;

/// A line of `cases.txt`: a name, the exit status, the arguments.
#[derive(Clone, Debug)]
pub struct Case {
    pub name: String,
    pub status: i32,
    pub arguments: Vec<String>,
}

/// The cases of a file; a line that begins with # is a comment.
pub fn cases(path: &Path) -> std::io::Result<Vec<Case>> {
    let text = std::fs::read_to_string(path)?;
    let lines = text.lines().filter(|line| !line.starts_with('#'));
    Ok(lines.map(case).collect())
}

fn case(line: &str) -> Case {
    let mut words = line.split_whitespace().map(str::to_string);
    let name = words.next().expect("a name");
    let status = words.next().and_then(|word| word.parse().ok());
    Case {
        name,
        status: status.expect("an exit status"),
        arguments: words.collect(),
    }
}

impl Case {
    /// The file of `expected` with the text.
    pub fn file(&self) -> String {
        format!("{}.txt", self.name)
    }

    /// The folder and the question that the arguments stand for; the sound ones only.
    fn read(&self) -> Option<(Option<&str>, Question)> {
        let mut question = Question::default();
        let mut places = Vec::new();
        let mut words = self.arguments.iter();
        while let Some(word) = words.next() {
            match word.as_str() {
                "--full" => question.full = true,
                "--blocks" => question.length = Length::Blocks(words.next()?.parse().ok()?),
                "--days" => question.length = Length::Days(words.next()?.parse().ok()?),
                "--in" => question.start = Start::After(words.next()?.parse().ok()?),
                "--from" => question.start = Start::Height(words.next()?.parse().ok()?),
                "--margin" => question.margin = words.next()?.parse().ok()?,
                "--height" | "--at" | "--minutes" => clock(&mut question, word, words.next()?)?,
                "--slots" => question.slots = Some(slots(words.next()?)?),
                "--base" => question.base = Some(words.next()?.parse().ok()?),
                "--side" => question.side = Some(side(words.next()?)?),
                "--help" => return None,
                place => places.push(Some(place).filter(|&place| place != "-")),
            }
        }
        let mut places = places.into_iter();
        let folder = places.next().flatten();
        if let Some(blocks) = places.next().flatten() {
            question.length = Length::Blocks(blocks.parse().ok()?);
        }
        if let Some(name) = places.next().flatten() {
            question.side = Some(side(name)?);
        }
        Some((folder, question))
    }

    /// The text and the exit status by the model; None for a case that only prints a message.
    pub fn expected(&self) -> Option<(String, i32)> {
        if self.status == 2 {
            return None;
        }
        let (folder, question) = self.read()?;
        let swaps = match folder {
            None => vec![("embedded".to_string(), samples::revoked())],
            Some(folder) => samples::in_folder(folder.strip_prefix("samples/")?),
        };
        if question.base.is_some() && swaps.len() != 1 {
            return None;
        }
        match complaints(&swaps, &question) {
            told if !told.is_empty() => Some((told, 1)),
            _ => {
                let (text, totals) = text(&swaps, &question);
                (totals.swaps > 0).then_some((text, totals.status()))
            }
        }
    }
}

/// An argument of the clock; the times of the cases are this one.
fn clock(question: &mut Question, name: &str, value: &str) -> Option<()> {
    let clock = question.clock.get_or_insert(Clock {
        height: 0,
        at: AT.0,
        minutes: 10,
        zone: 0,
    });
    match name {
        "--height" => clock.height = value.parse().ok()?,
        "--minutes" => clock.minutes = value.parse().ok()?,
        _ => return (value == AT.1).then_some(()),
    }
    Some(())
}

/// A time in minutes since 1970, and as it is written.
const AT: (i64, &str) = (29_915_430, "2026-11-17T14:30Z");

/// "N blocks, or of days as 2d".
fn slots(word: &str) -> Option<Length> {
    match word.strip_suffix('d') {
        Some(days) => Some(Length::Days(days.parse().ok()?)),
        None => Some(Length::Blocks(word.parse().ok()?)),
    }
}

fn side(name: &str) -> Option<u8> {
    match name {
        "alice" => Some(ALICE),
        "bob" => Some(BOB),
        "carol" => Some(CAROL),
        _ => None,
    }
}
