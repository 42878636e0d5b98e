//! The four outward calls of each version, as functions that can be put in one another's place.

use crate::fast::{ByValue, Lent};
use crate::model::calls as model;
use crate::random::Case;
use crate::{engine, fast};
use std::fmt;

/// The four calls.
#[derive(Clone, Copy, Debug, PartialEq, Eq)]
pub enum Call {
    Check,
    Run,
    List,
    Report,
}

/// Sheet, setup and journal, as bytes.
#[derive(Clone, Copy)]
pub struct Inputs<'a> {
    pub sheet: &'a [u8],
    pub setup: &'a [u8],
    pub journal: &'a [u8],
}

impl<'a> Inputs<'a> {
    pub fn of((sheet, setup, journal): &'a Case) -> Inputs<'a> {
        Inputs {
            sheet,
            setup,
            journal,
        }
    }
}

/// The bytes in hexadecimal digits.
impl fmt::Debug for Inputs<'_> {
    fn fmt(&self, to: &mut fmt::Formatter) -> fmt::Result {
        let hex = |bytes: &[u8]| bytes.iter().map(|b| format!("{b:02x}")).collect::<String>();
        let (sheet, setup, journal) = (hex(self.sheet), hex(self.setup), hex(self.journal));
        write!(to, "sheet {sheet} setup {setup} journal {journal}")
    }
}

/// A call that is lent a buffer: sheet, setup, journal, output.
pub type Writes = fn(&[u8], &[u8], &[u8], &mut [u8]) -> u32;

/// The four calls of one version. Each answers the one number that C gets.
#[derive(Clone, Copy, Debug)]
pub struct Calls {
    pub check: fn(&[u8]) -> u32,
    pub run: fn(&[u8], &[u8], &[u8]) -> u32,
    pub list: Writes,
    pub report: Writes,
}

impl Calls {
    /// The answer of one of them; check and run use no buffer.
    pub fn answer(&self, call: Call, inputs: &Inputs, output: &mut [u8]) -> u32 {
        let Inputs {
            sheet,
            setup,
            journal,
        } = *inputs;
        match call {
            Call::Check => (self.check)(sheet),
            Call::Run => (self.run)(sheet, setup, journal),
            Call::List => (self.list)(sheet, setup, journal, output),
            Call::Report => (self.report)(sheet, setup, journal, output),
        }
    }
}

/// The built library.
pub const ENGINE: Calls = Calls {
    check: engine::check,
    run: engine::run,
    list: engine::list,
    report: engine::report,
};

/// The model.
pub const MODEL: Calls = Calls {
    check: model::check_number,
    run: model::run_number,
    list: model::list_number,
    report: model::report_number,
};

/// The plain, fast version.
pub const FAST: Calls = Calls {
    check: fast::check,
    run: fast::run::<Lent>,
    list: fast::list::<Lent>,
    report: fast::report::<Lent>,
};

/// The fast version with the position passed by value through one function for each kind of step.
pub const BY_VALUE: Calls = Calls {
    check: fast::check,
    run: fast::run::<ByValue<true>>,
    list: fast::list::<ByValue<true>>,
    report: fast::report::<ByValue<true>>,
};

/// That form of a run without any test or effect: every step is accepted and moves nothing.
pub const COPIES: fn(&[u8], &[u8], &[u8]) -> u32 = fast::run::<ByValue<false>>;
