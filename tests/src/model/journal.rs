//! Journals: steps in a row, up to the first refused one or past refused ones.

use super::ledger::Entry;
use super::position::Position;
use super::setup::Setup;
use super::sheet::Sheet;
use super::step::{self, Kind};

/// "over 65,536 bytes".
pub const MOST_BYTES: usize = 65_536;

/// 24: "journal not a multiple of 4, or over 65,536 bytes".
pub fn check(journal: &[u8]) -> u32 {
    let whole = journal.chunks_exact(4).remainder().is_empty();
    match whole && journal.len() <= MOST_BYTES {
        true => 0,
        false => 24,
    }
}

/// The 4-byte groups of a journal; bytes after the last whole group are no step.
pub fn groups(journal: &[u8]) -> Vec<[u8; 4]> {
    let chunks = journal.chunks_exact(4);
    chunks.map(|c| [c[0], c[1], c[2], c[3]]).collect()
}

/// What stands after some accepted steps.
#[derive(Clone, Debug, PartialEq, Eq)]
pub struct Course {
    /// The accepted steps in their order.
    pub accepted: Vec<[u8; 4]>,
    pub position: Position,
    /// The entries that the accepted kind 6 steps confirm.
    pub entries: Vec<Entry>,
}

impl Course {
    pub fn fresh(sheet: &Sheet) -> Course {
        Course {
            accepted: Vec::new(),
            position: Position::fresh(sheet),
            entries: Vec::new(),
        }
    }

    /// One more group: its refusal, or 0 and the position has moved.
    pub fn take(&mut self, sheet: &Sheet, setup: &Setup, bytes: &[u8; 4]) -> u32 {
        let number = step::refusal(sheet, setup, &self.position, bytes);
        if let (0, Ok(step)) = (number, step::decode(sheet, setup, bytes)) {
            if step.kind == Kind::Mine {
                self.note_block();
            }
            step::effect(sheet, setup, &mut self.position, &step);
            self.accepted.push(*bytes);
        }
        number
    }

    /// The block about to be mined, as ledger entries.
    fn note_block(&mut self) {
        let block = self.position.mined + 1;
        let entries = self.position.block.iter();
        self.entries
            .extend(entries.map(|(&transaction, &destination)| Entry {
                transaction,
                destination,
                block,
            }));
    }
}

/// Steps up to the first refused one: its number, or 0 after the last.
pub fn run(sheet: &Sheet, setup: &Setup, groups: &[[u8; 4]]) -> (u32, Course) {
    let mut course = Course::fresh(sheet);
    for bytes in groups {
        let number = course.take(sheet, setup, bytes);
        if number != 0 {
            return (number, course);
        }
    }
    (0, course)
}

/// All groups, the refused ones passed over.
pub fn play(sheet: &Sheet, setup: &Setup, groups: &[[u8; 4]]) -> Course {
    let mut course = Course::fresh(sheet);
    for bytes in groups {
        course.take(sheet, setup, bytes);
    }
    course
}
