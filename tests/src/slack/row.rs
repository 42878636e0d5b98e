//! What the call slack writes: for each party the longest outage over which it keeps a way to a payout, and what it counts on.

use super::{Outlook, View};
use crate::model::heights::NEVER;
use crate::model::position::Position;
use crate::model::setup::Setup;
use crate::model::sheet::Sheet;
use crate::model::{calls, step};

/// "For each party of the sheet, in the order Alice, Bob, Carol, 8 bytes".
pub const ROW: usize = 8;
/// "The greatest k up to 10,000 that is kept".
pub const LONGEST: u32 = 10_000;
/// "255 and 255 if none".
pub const NONE: u8 = 255;

/// A party's row.
#[derive(Clone, Copy, Debug, PartialEq, Eq)]
pub struct Row {
    /// "The slack in blocks .. 2147483647, \"never\", where not even 0 is".
    pub blocks: u32,
    /// "The transaction that the party counts on and its destination".
    pub counted: Option<(u8, u8)>,
    /// "1 where it is to be sent before the next block".
    pub due: bool,
}

impl Row {
    pub fn of(sheet: &Sheet, setup: &Setup, position: &Position, party: u8) -> Row {
        let outlook = Outlook::of(sheet, setup, position, party);
        let blocks = outlook.slack();
        let counted = match blocks {
            NEVER => None,
            k => outlook.counted_on(k),
        };
        // "slack 0 and the send or hand-in of it is open now"
        let is_open = |(t, destination): (u8, u8)| {
            [3, 4].iter().any(|&kind| {
                step::refusal(sheet, setup, position, &[kind, party, t, destination]) == 0
            })
        };
        let due = blocks == 0 && counted.is_some_and(is_open);
        Row {
            blocks,
            counted,
            due,
        }
    }

    /// Whether it says that an outage of so many blocks is kept.
    pub fn keeps(&self, blocks: u32) -> bool {
        self.blocks != NEVER && blocks <= self.blocks
    }

    pub fn bytes(&self) -> [u8; ROW] {
        let (t, destination) = self.counted.unwrap_or((NONE, NONE));
        let [a, b, c, d] = self.blocks.to_le_bytes();
        [a, b, c, d, t, destination, u8::from(self.due), 0]
    }

    pub fn read(bytes: &[u8]) -> Row {
        let counted = (bytes[4], bytes[5]);
        Row {
            blocks: u32::from_le_bytes([bytes[0], bytes[1], bytes[2], bytes[3]]),
            counted: (counted != (NONE, NONE)).then_some(counted),
            due: bytes[6] == 1,
        }
    }
}

impl Outlook<'_> {
    /// "The greatest k ≤ 10,000 with lasts(k)", "2147483647, \"never\", where not even 0 is".
    pub fn slack(&self) -> u32 {
        let heights = self.stands.heights().chain(self.settled.heights());
        let mut asked: Vec<u32> = heights
            .filter_map(|height| height.checked_sub(self.stands.position.mined))
            .filter(|&k| k < LONGEST)
            .chain([0, LONGEST])
            .collect();
        asked.sort_unstable();
        let mut falling = asked.into_iter().rev();
        falling.find(|&k| self.lasts(k)).unwrap_or(NEVER)
    }

    /// "Counted on": asked of the position as it stands where that keeps as many blocks, else of the settled one; none where a
    /// payout is confirmed.
    pub fn counted_on(&self, blocks: u32) -> Option<(u8, u8)> {
        match self.stands.kept(blocks) {
            true => self.stands.counted_on(blocks),
            false => self.settled.counted_on(blocks.max(1)),
        }
    }
}

impl View<'_> {
    /// Whether an outage is kept goes by comparing b, b + 1 or b - 1 with lock heights alone, so the last b before a change is
    /// one of these.
    fn heights(&self) -> impl Iterator<Item = u32> + '_ {
        let locks = (0..self.sheet.count()).map(|t| self.lock(t));
        locks.flat_map(|lock| [lock, lock.saturating_sub(1), lock.saturating_sub(2)])
    }

    /// "such a t, one with nothing in beat before others, then the lowest", with its destination.
    fn counted_on(&self, blocks: u32) -> Option<(u8, u8)> {
        let off = self.position.mined + blocks;
        let good = self.reached().filter(|&u| self.good(u, off));
        let least = good.min_by_key(|&u| (!self.is_unbeaten(u, off), u));
        let counted = least.filter(|_| !self.is_paid());
        counted.map(|t| (t, self.destination(t)))
    }
}

/// The rows of all parties.
pub fn bytes(sheet: &Sheet, setup: &Setup, position: &Position) -> Vec<u8> {
    let parties = sheet.parties.iter();
    parties
        .flat_map(|&party| Row::of(sheet, setup, position, party).bytes())
        .collect()
}

/// The number that C gets from slack: "the arguments and refusals of report (25 last, under 8 bytes for each party), count
/// 0".
pub fn number(sheet: &[u8], setup: &[u8], journal: &[u8], output: &mut [u8]) -> u32 {
    let refusal = match calls::outcome(sheet, setup, journal) {
        Err(refusal) => refusal,
        Ok(outcome) if outcome.refusal != 0 => outcome.refusal,
        Ok(outcome) => {
            let position = &outcome.course.position;
            calls::write(output, &bytes(&outcome.sheet, &outcome.setup, position))
        }
    };
    calls::number(refusal, 0)
}
