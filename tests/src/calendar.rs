//! What the calendar of `examples/calendar` prints, written a second time over the model.

mod action;
mod after;
mod cases;
pub mod clock;
pub mod data;
pub mod ics;
pub mod outages;
pub mod page;
pub mod rule;
mod screen;
pub mod stand;
mod view;
pub mod words;

pub use cases::{cases, Case};

use crate::model::calls::{self, Run};
use crate::model::setup::Setup;
use crate::model::sheet::Head;
use crate::model::{ALICE, BOB, CAROL};
use crate::samples::{Files, FILES};
use crate::swapfile;
use clock::Clock;
use view::View;
use words::Names;

/// The length of an outage.
#[derive(Clone, Copy, Debug, PartialEq, Eq)]
pub enum Length {
    Days(u32),
    Blocks(u32),
}

impl Length {
    pub fn blocks(self, setup: &Setup) -> u32 {
        match self {
            Length::Days(days) => days * setup.blocks_per_day,
            Length::Blocks(blocks) => blocks,
        }
    }

    /// "1 day", "3 blocks".
    pub fn words(self) -> String {
        match self {
            Length::Days(1) => "1 day".to_string(),
            Length::Days(days) => format!("{days} days"),
            Length::Blocks(1) => "1 block".to_string(),
            Length::Blocks(blocks) => format!("{blocks} blocks"),
        }
    }
}

/// When an outage begins: after so many blocks from now, or in the block of this height of the real chain.
#[derive(Clone, Copy, Debug, PartialEq, Eq)]
pub enum Start {
    After(u32),
    Height(u32),
}

/// What is asked of the calendar.
#[derive(Clone, Copy, Debug, PartialEq, Eq)]
pub struct Question {
    pub full: bool,
    /// By each swap's folder where None.
    pub side: Option<u8>,
    pub length: Length,
    pub start: Start,
    pub margin: u32,
    /// The length of an outage for which stretches are asked.
    pub slots: Option<Length>,
    /// By each swap's folder where None.
    pub base: Option<u32>,
    pub clock: Option<Clock>,
}

impl Default for Question {
    fn default() -> Question {
        Question {
            full: false,
            side: None,
            length: Length::Days(1),
            start: Start::After(0),
            margin: 0,
            slots: None,
            base: None,
            clock: None,
        }
    }
}

impl Question {
    /// The arguments that ask it.
    pub fn arguments(&self) -> Vec<String> {
        let mut words = match self.length {
            Length::Days(days) => format!("--days {days}"),
            Length::Blocks(blocks) => format!("--blocks {blocks}"),
        };
        words += &match self.start {
            Start::After(blocks) => format!(" --in {blocks}"),
            Start::Height(from) => format!(" --from {from}"),
        };
        words += &format!(" --margin {}", self.margin);
        words += &match self.slots {
            None => String::new(),
            Some(Length::Blocks(blocks)) => format!(" --slots {blocks}"),
            Some(Length::Days(days)) => format!(" --slots {days}d"),
        };
        if let Some(base) = self.base {
            words += &format!(" --base {base}");
        }
        if let Some(clock) = self.clock {
            let (height, at, minutes) = (clock.height, clock::iso(clock.at), clock.minutes);
            words += &format!(" --height {height} --at {at} --minutes {minutes}");
        }
        if let Some(side) = self.side {
            words += [" --side alice", " --side bob", "", " --side carol"][usize::from(side)];
        }
        if self.full {
            words += " --full";
        }
        words.split(' ').map(str::to_string).collect()
    }

    /// The blocks of the outage.
    pub fn blocks(&self, setup: &Setup) -> u32 {
        self.length.blocks(setup)
    }
}

/// The sums of the last line.
#[derive(Clone, Copy, Debug, Default, PartialEq, Eq)]
pub struct Totals {
    pub swaps: usize,
    pub warnings: usize,
    pub not_yet: usize,
    pub given_up: usize,
    pub refused: usize,
}

impl Totals {
    /// "Exit status: 0 no warning; 3 warnings; 1 a swap is refused or cannot be read".
    pub fn status(&self) -> i32 {
        match self {
            Totals { refused: 1.., .. } => 1,
            Totals { warnings: 1.., .. } => 3,
            _ => 0,
        }
    }
}

/// A swap of the desk.
pub enum Found {
    /// With the sides that are shown.
    Sound(Box<View>, Vec<u8>),
    /// Refused or unreadable, and why.
    Faulty(&'static str, String),
}

/// The swaps of a desk, by name.
fn found_all(swaps: &[(String, Files)], question: &Question) -> Vec<(String, Found)> {
    let each = swaps.iter();
    each.map(|(name, files)| (name.clone(), found(files, question)))
        .collect()
}

/// Why the question does not fit the swaps: a line for each that has no base where one is needed, in whose past the outage
/// begins, or that stands at another height than the clock.
/// Nothing where it fits.
pub fn complaints(swaps: &[(String, Files)], question: &Question) -> String {
    let of = |(name, found): &(String, Found)| match found {
        Found::Faulty(..) => String::new(),
        Found::Sound(view, _) => match complaint(view, question) {
            None => String::new(),
            Some(reason) => format!("calendar: {name}: {reason}\n"),
        },
    };
    found_all(swaps, question).iter().map(of).collect()
}

/// How long and when the box of a side can be off: the longest outage, None where any does no harm or the margin alone
/// is too long, and the stretches for an outage of this length.
#[derive(Clone, Debug, PartialEq, Eq)]
pub struct HowLong {
    pub any: bool,
    pub blocks: Option<u32>,
    pub slots: outages::Slots,
}

pub fn how_long(swaps: &[(String, Files)], length: Length, margin: u32, side: u8) -> HowLong {
    let found = found_all(swaps, &Question::default());
    let longest = outages::longest(&found, side);
    HowLong {
        any: longest.is_none(),
        blocks: longest.and_then(|(_, _, stand)| stand.slack.checked_sub(margin)),
        slots: outages::slots(&found, length, margin, side),
    }
}

/// Of one swap.
fn complaint(view: &View, question: &Question) -> Option<String> {
    let stands = view.base().map(|base| base + view.mined());
    match (question.start, question.clock, stands) {
        (Start::After(_), None, _) => None,
        (Start::Height(_), _, None) => {
            Some("no base, and --from is a height of the real chain".to_string())
        }
        (_, Some(_), None) => {
            Some("no base, and --height is a height of the real chain".to_string())
        }
        (_, Some(clock), Some(height)) if clock.height != height => Some(format!(
            "stands at height {height}, and --height is {}",
            clock.height
        )),
        (Start::Height(from), _, Some(height)) if from <= height => Some(format!(
            "--from {from} is in the past: the swap stands at height {height}"
        )),
        _ => None,
    }
}

/// The output for swaps by name, and its sums.
pub fn text(swaps: &[(String, Files)], question: &Question) -> (String, Totals) {
    let found = found_all(swaps, question);
    let totals = totals(&found, question);
    let mut text = match question.full {
        false => screen::text(&found, question),
        true => (found.iter().zip(swaps))
            .map(|((name, found), (_, files))| full(name, found, files, question))
            .collect(),
    };
    for line in outages::lines(&found, question) {
        text += &format!("{line}\n");
    }
    let Totals {
        swaps,
        warnings,
        not_yet,
        given_up,
        refused,
    } = totals;
    text += &format!("swaps: {swaps}; warnings: {warnings}; nothing secured yet: {not_yet}; ");
    text += &format!("given up: {given_up}; ");
    text += &format!("refused or unreadable: {refused}\n");
    (text, totals)
}

fn totals(swaps: &[(String, Found)], question: &Question) -> Totals {
    let mut totals = Totals {
        swaps: swaps.len(),
        ..Totals::default()
    };
    for (_, found) in swaps {
        match found {
            Found::Faulty(..) => totals.refused += 1,
            Found::Sound(view, sides) => {
                for &side in sides {
                    let more = view.totals(question, side);
                    totals.warnings += more.warnings;
                    totals.not_yet += more.not_yet;
                    totals.given_up += more.given_up;
                }
            }
        }
    }
    totals
}

/// The sides that a swap's file names, every party where there is none; or what is wrong with it.
fn sides(sheet: &[u8], file: &Option<Vec<u8>>) -> Result<Vec<u8>, &'static str> {
    let parties = Head::of(sheet).parties;
    let side = match file.as_deref() {
        None => return Ok(parties.to_vec()),
        Some(b"alice" | b"alice\n") => ALICE,
        Some(b"bob" | b"bob\n") => BOB,
        Some(b"carol" | b"carol\n") => CAROL,
        Some(_) => return Err("not alice, bob or carol"),
    };
    match parties.contains(&side) {
        true => Ok(vec![side]),
        false => Err("carol is no party of this sheet"),
    }
}

/// The number in a file `base`: "0 to 499999999", up to nine digits and a line end.
fn number(file: &[u8]) -> Result<u32, &'static str> {
    let text = std::str::from_utf8(file).unwrap_or("");
    let text = text.trim_end_matches(['\n', '\r']);
    let digits = (1..=9).contains(&text.len()) && text.bytes().all(|b| b.is_ascii_digit());
    match text.parse() {
        Ok(base) if digits && base <= 499_999_999 => Ok(base),
        _ => Err("not a number from 0 to 499999999"),
    }
}

fn found(files: &Files, question: &Question) -> Found {
    let [Some(sheet), Some(setup), Some(journal), side, base] = files else {
        return Found::Faulty("UNREADABLE", missing(files));
    };
    let sides = match sides(sheet, side) {
        Ok(sides) => sides,
        Err(reason) => return Found::Faulty("UNREADABLE", format!("side: {reason}")),
    };
    let base = match base.as_deref().map(number).transpose() {
        Ok(base) => question.base.or(base),
        Err(reason) => return Found::Faulty("UNREADABLE", format!("base: {reason}")),
    };
    match calls::outcome(sheet, setup, journal) {
        Ok(outcome) if outcome.refusal == 0 => {
            let mut sides = question.side.map_or(sides, |side| vec![side]);
            sides.retain(|&side| outcome.sheet.is_party(side));
            let view = View::new([sheet, setup, journal], outcome, &sides, base);
            Found::Sound(Box::new(view), sides)
        }
        _ => Found::Faulty(
            "REFUSED",
            refusal(calls::run(sheet, setup, journal).refusal),
        ),
    }
}

/// The first file that is not there.
fn missing(files: &Files) -> String {
    let missing = files.iter().position(Option::is_none);
    let name = FILES[missing.expect("a file that is missing")];
    format!("{name}: No such file or directory")
}

fn refusal(number: u32) -> String {
    let (name, words) = words::refusal(number);
    format!("SWAP_{name} ({number}), {words}")
}

/// All of one swap.
fn full(name: &str, found: &Found, files: &Files, question: &Question) -> String {
    let lines = match found {
        Found::Sound(view, sides) => view.lines(question, sides),
        Found::Faulty("REFUSED", reason) => refused(files, reason),
        Found::Faulty(_, reason) => vec![
            format!("  unreadable: {reason}"),
            "  no deadlines: the swap is not known".to_string(),
        ],
    };
    format!("swap {name}\n{}\n\n", lines.join("\n"))
}

fn refused(files: &Files, reason: &str) -> Vec<String> {
    let [Some(sheet), Some(setup), Some(journal), ..] = files else {
        panic!("a refused swap is read")
    };
    let run = calls::run(sheet, setup, journal);
    let mut lines = vec![format!("  refused: {reason}")];
    if (11..=23).contains(&run.refusal) {
        let names = Names::of(sheet, u16::from_le_bytes([setup[0], setup[1]]));
        lines.push(refused_step(&names, &run, journal.len() / 4));
    }
    let reason = "the engine gives them for a wholly accepted journal only";
    lines.push(format!("  no deadlines: {reason}"));
    lines
}

/// The step at which a run stopped; in words too where its fields are in range.
fn refused_step(names: &Names, run: &Run, steps: usize) -> String {
    let step = [0, 1, 2, 3].map(|place| run.rest[place]);
    let [kind, party, t, destination] = step;
    let words = match run.refusal {
        11 => String::new(),
        _ => format!(", {}", swapfile::step_words(names, &step)),
    };
    let number = run.accepted + 1;
    format!("  refused step: {number} of {steps}, bytes {kind} {party} {t} {destination}{words}")
}
