//! Where a side stands: for how many blocks it keeps a way to a payout without a step of its own, and which of its open
//! steps makes that more.

use super::rule::Swap;
use super::view::View;
use crate::model::calls::Outcome;
use crate::model::heights::{self, NEVER};
use crate::model::journal::MOST_BYTES;
use crate::model::setup::Conduct;
use crate::model::sheet::payee_bit;
use crate::slack::row::{Row, LONGEST};
use std::cell::RefCell;
use std::collections::HashMap;

/// "nothing secured yet" and "given up" are no warnings.
#[derive(Clone, Copy, Debug, PartialEq, Eq)]
pub enum Standing {
    /// A payout is confirmed or sure.
    Paid,
    Kept,
    /// None is kept, but one is after an open step.
    Needs,
    /// "nothing secured yet"
    NotYet,
    GivenUp,
}

impl Standing {
    pub fn word(self) -> &'static str {
        match self {
            Standing::Paid => "paid",
            Standing::Kept => "kept",
            Standing::Needs => "needs a step",
            Standing::NotYet => "nothing secured yet",
            Standing::GivenUp => "given up",
        }
    }

    /// Whether there is a payout to lose.
    pub fn is_secured(self) -> bool {
        !matches!(self, Standing::NotYet | Standing::GivenUp)
    }
}

#[derive(Clone, Copy, Debug, PartialEq, Eq)]
pub struct Stand {
    pub standing: Standing,
    /// In blocks; 0 where none is kept.
    pub slack: u32,
    /// What is counted on, and its destination.
    pub counted: Option<(u8, u8)>,
    /// The open step that makes the slack most, and what it then is.
    pub help: Option<([u8; 4], u32)>,
}

/// A swap's files and a side.
type Key = (Vec<Vec<u8>>, u8);

thread_local! {
    /// What was found before: a desk is asked many questions.
    static FOUND: RefCell<HashMap<Key, Stand>> = RefCell::new(HashMap::new());
}

fn sends(step: &[u8; 4]) -> bool {
    [3, 4].contains(&step[0])
}

impl Stand {
    /// Of a swap by its files, found once.
    pub fn known(files: [&[u8]; 3], outcome: &Outcome, open: &[[u8; 4]], side: u8) -> Stand {
        let key = (files.map(<[u8]>::to_vec).to_vec(), side);
        let known = FOUND.with(|found| found.borrow().get(&key).copied());
        known.unwrap_or_else(|| {
            let stand = Stand::of(outcome, open, side);
            FOUND.with(|found| found.borrow_mut().insert(key, stand));
            stand
        })
    }

    pub fn of(outcome: &Outcome, open: &[[u8; 4]], side: u8) -> Stand {
        let Outcome {
            sheet,
            setup,
            course,
            ..
        } = outcome;
        let row = Row::of(sheet, setup, &course.position, side);
        let plain = Stand {
            standing: match (row.blocks, row.counted) {
                (NEVER, _) => unsecured(outcome, side),
                (_, None) => Standing::Paid,
                _ => Standing::Kept,
            },
            slack: if row.blocks == NEVER { 0 } else { row.blocks },
            counted: row.counted,
            help: None,
        };
        if plain.slack == LONGEST || course.accepted.len() * 4 >= MOST_BYTES {
            return plain;
        }
        let after = open.iter().filter(|step| step[1] == side).map(|step| {
            let mut then = course.clone();
            assert_eq!(then.take(sheet, setup, step), 0);
            (step, Row::of(sheet, setup, &then.position, side))
        });
        let kept = plain.standing == Standing::Kept;
        let more =
            after.filter(|(_, then)| then.blocks != NEVER && (!kept || then.blocks > plain.slack));
        let counted = plain.counted.map(|(t, _)| t);
        // the first of the greatest: sends and hand-ins, the slack, what is counted on
        let rank = |step: &[u8; 4], then: &Row| {
            let own = sends(step) && Some(step[2]) == counted;
            (sends(step), then.blocks, own)
        };
        let best = more.reduce(
            |best, next| match rank(next.0, &next.1) > rank(best.0, &best.1) {
                true => next,
                false => best,
            },
        );
        let Some((step, then)) = best else {
            return plain;
        };
        let sure = sends(step).then_some((step[2], step[3]));
        Stand {
            standing: if kept {
                Standing::Kept
            } else {
                Standing::Needs
            },
            counted: plain.counted.or(then.counted).or(sure),
            help: Some((*step, then.blocks)),
            ..plain
        }
    }

    /// Whether some outage is longer than the slack.
    pub fn is_bounded(&self) -> bool {
        self.standing == Standing::Needs || self.standing == Standing::Kept && self.slack < LONGEST
    }

    /// Whether an outage that ends, with its margin, after so many blocks is a warning.
    pub fn warns(&self, reach: u32) -> bool {
        self.is_bounded() && self.slack < reach
    }

    /// The slack after the open step that makes it most.
    pub fn done(&self) -> u32 {
        self.help.map_or(self.slack, |(_, then)| then)
    }
}

/// "Given up: nothing that is left can pay the side, or, under careful conduct, it has sent an opening; nothing secured yet:
/// else."
fn unsecured(outcome: &Outcome, side: u8) -> Standing {
    let Outcome {
        sheet,
        setup,
        course,
        ..
    } = outcome;
    let position = &course.position;
    let swap = Swap {
        sheet,
        setup,
        position,
    };
    let opens = |step: &[u8; 4]| {
        sends(step) && step[1] == side && sheet.transaction(step[2]).parent.is_none()
    };
    let left = |t: u8| !position.is_confirmed(t) && !heights::dead(sheet, position, t);
    let pays = |t: u8| left(t) && swap.can_pay(t) & payee_bit(side) != 0;
    let locked = setup.conduct == Conduct::Careful && course.accepted.iter().any(opens);
    match locked || !(0..sheet.count()).any(pays) {
        true => Standing::GivenUp,
        false => Standing::NotYet,
    }
}

impl View {
    /// Whether a transaction that pays the side is confirmed.
    pub fn is_paid(&self, side: u8) -> bool {
        let confirmed = &self.outcome().course.position.confirmed;
        confirmed.values().any(|c| c.destination == side)
    }
}
