//! How the position goes into a step and comes back: lent, or by value.

use super::contract::Contract;
use super::opened::Opened;
use super::position::Position;
use super::{step, Checked};

/// What stands after the accepted steps of a journal.
pub struct Ran {
    pub position: Position,
    pub refusal: u32,
    pub accepted: usize,
    pub opened: Opened,
}

/// A form of taking steps.
pub trait Form {
    /// The steps up to the first refused one; with NOTE, when each transaction was first open.
    fn run<const NOTE: bool>(contract: &Contract, steps: &[[u8; 4]]) -> Ran;
}

/// The position is lent to each step, which changes it in its place.
pub struct Lent;

impl Form for Lent {
    fn run<const NOTE: bool>(contract: &Contract, steps: &[[u8; 4]]) -> Ran {
        let mut position = Position::new(contract);
        let mut opened = Opened::new::<NOTE>(contract, &position);
        for (accepted, &step) in steps.iter().enumerate() {
            if let Err(refusal) = step::take(contract, &mut position, step) {
                return ran(position, refusal, accepted, opened);
            }
            opened.note::<NOTE>(contract, &position);
        }
        ran(position, 0, steps.len(), opened)
    }
}

/// "The position goes into a step and comes back from it, whole, accepted or not": by value, through one function for
/// each kind of step that is not inlined. Without the rules these functions test and change nothing: the copies remain.
pub struct ByValue<const RULES: bool>;

impl<const RULES: bool> Form for ByValue<RULES> {
    fn run<const NOTE: bool>(contract: &Contract, steps: &[[u8; 4]]) -> Ran {
        let mut position = Position::new(contract);
        let mut opened = Opened::new::<NOTE>(contract, &position);
        for (accepted, &step) in steps.iter().enumerate() {
            let stepped = position.step::<RULES>(contract, step);
            position = stepped.position;
            if let Err(refusal) = stepped.checked {
                return ran(position, refusal, accepted, opened);
            }
            opened.note::<NOTE>(contract, &position);
        }
        ran(position, 0, steps.len(), opened)
    }
}

fn ran(position: Position, refusal: u32, accepted: usize, opened: Opened) -> Ran {
    Ran {
        position,
        refusal,
        accepted,
        opened,
    }
}

/// The position after a step, or as it was, and the step's refusal.
struct Stepped {
    position: Position,
    checked: Checked,
}

impl Position {
    #[inline(always)]
    fn step<const RULES: bool>(self, contract: &Contract, step: [u8; 4]) -> Stepped {
        match step[0] {
            1 => self.step_of::<1, RULES>(contract, step),
            2 => self.step_of::<2, RULES>(contract, step),
            3 => self.step_of::<3, RULES>(contract, step),
            4 => self.step_of::<4, RULES>(contract, step),
            5 => self.step_of::<5, RULES>(contract, step),
            6 => self.step_of::<6, RULES>(contract, step),
            7 => self.step_of::<7, RULES>(contract, step),
            _ => Stepped {
                position: self,
                checked: Err(11),
            },
        }
    }

    /// A step of this kind, by the code of the form that is lent the position.
    #[inline(never)]
    fn step_of<const KIND: u8, const RULES: bool>(
        mut self,
        contract: &Contract,
        [_, party, t, to]: [u8; 4],
    ) -> Stepped {
        let checked = match RULES {
            true => step::take(contract, &mut self, [KIND, party, t, to]),
            false => Ok(()),
        };
        Stepped {
            position: self,
            checked,
        }
    }
}
