//! Games that a test plays against the model by hand.

use crate::model::position::Position;
use crate::model::{calls, report, sheet};
use crate::random::MINE;
use crate::samples::LOCK_A;

/// Alice gives sigAlice to Bob.
pub const GIVE_SIG_ALICE: [u8; 4] = [2, 0, 0, 1];
/// Bob gives secretBob to Alice.
pub const GIVE_SECRET_BOB: [u8; 4] = [2, 1, 3, 0];

/// A sheet, a setup and the journal so far, all as bytes.
#[derive(Clone)]
pub struct Game {
    pub sheet: Vec<u8>,
    pub setup: Vec<u8>,
    pub journal: Vec<u8>,
}

impl Game {
    pub fn saswap(blocks_per_day: u16, conduct: u8, stealth: u8) -> Game {
        let [low, high] = blocks_per_day.to_le_bytes();
        Game {
            sheet: sheet::saswap(blocks_per_day),
            setup: vec![low, high, conduct, stealth],
            journal: Vec::new(),
        }
    }

    pub fn other(sheet: &[u8], setup: [u8; 4]) -> Game {
        Game {
            sheet: sheet.to_vec(),
            setup: setup.to_vec(),
            journal: Vec::new(),
        }
    }

    /// The game after more steps, which are all accepted.
    pub fn after(mut self, steps: &[[u8; 4]]) -> Game {
        self.journal.extend(steps.concat());
        let run = calls::run(&self.sheet, &self.setup, &self.journal);
        assert_eq!(run.refusal, 0, "at step {}", run.accepted);
        self
    }

    /// The game after empty blocks up to a number of blocks mined.
    pub fn at_blocks(self, blocks: u32) -> Game {
        let more = blocks - self.position().mined;
        let steps = vec![MINE; more as usize];
        self.after(&steps)
    }

    /// The refusal of one more step, 0 if it passes.
    pub fn next(&self, step: [u8; 4]) -> u32 {
        let mut journal = self.journal.clone();
        journal.extend(step);
        let run = calls::run(&self.sheet, &self.setup, &journal);
        let accepted = self.journal.len() / 4 + usize::from(run.refusal == 0);
        assert_eq!(run.accepted, accepted);
        assert_eq!(run.rest, &journal[4 * accepted..]);
        run.refusal
    }

    pub fn outcome(&self) -> calls::Outcome {
        let outcome = calls::outcome(&self.sheet, &self.setup, &self.journal).unwrap();
        assert_eq!(outcome.refusal, 0);
        outcome
    }

    pub fn position(&self) -> Position {
        self.outcome().course.position
    }

    /// One row of the report.
    pub fn row(&self, t: usize) -> Row {
        let bytes = calls::report_bytes(&self.sheet, &self.setup, &self.journal).unwrap();
        let row = &bytes[report::ROW * t..][..report::ROW];
        let value = |at: usize| u32::from_le_bytes(row[at..at + 4].try_into().unwrap());
        Row {
            status: row[0],
            payee: row[1],
            block: value(2),
            lock_height: value(6),
            deadline: value(10),
        }
    }
}

/// A row of the report.
#[derive(Debug, PartialEq, Eq)]
pub struct Row {
    pub status: u8,
    pub payee: u8,
    pub block: u32,
    pub lock_height: u32,
    pub deadline: u32,
}

/// The game of P6: 3 a day, open, stealth 1, lock_A confirmed, Bob has sigAlice.
pub fn p6_game() -> Game {
    Game::saswap(3, 0, 1)
        .after(&LOCK_A)
        .after(&[GIVE_SIG_ALICE])
}
