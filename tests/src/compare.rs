//! The built library, or another version of the calls, held to the model: cases through all four calls, and positions with
//! the steps that could come next.

use crate::calls::{Call, Calls, Inputs, MODEL};
use crate::model::journal::Course;
use crate::model::setup::{Conduct, Setup};
use crate::model::sheet::{self, Sheet};
use crate::model::{calls, claims, invariants, open, report, step};
use crate::random::{self, Case, Manner, Random};
use std::collections::BTreeSet;
use std::fmt;

/// The bytes on either side of a lent buffer.
const GUARD: usize = 17;
/// Accepted steps up to which every open step is tried; after more of them, one is.
const SHORT: usize = 200;
/// The most steps that are tried of those that get 11.
const TRIES: usize = 6;
/// The most blocks of one turn.
const LEAP: usize = 2_100;
/// The refusals are below this number; 32 is the last of the four calls'.
const NUMBERS: usize = 33;

/// The bytes that list or report has to write; 16 where it is refused.
fn needed(call: Call, inputs: &Inputs) -> usize {
    let (sheet, setup, journal) = (inputs.sheet, inputs.setup, inputs.journal);
    let bytes = match call {
        Call::List => calls::open_steps(sheet, setup, journal).map(|steps| 4 * steps.len()),
        _ => calls::report_bytes(sheet, setup, journal).map(|rows| rows.len()),
    };
    bytes.unwrap_or(16)
}

/// Lengths of a buffer: exact, one short, one more, long, empty.
fn lengths(exact: usize) -> [usize; 5] {
    [exact, exact.saturating_sub(1), exact + 1, exact + 40, 0]
}

/// A valid sheet and setup: their bytes, and what these stand for.
pub struct Game {
    bytes: (Vec<u8>, Vec<u8>),
    pub sheet: Sheet,
    pub setup: Setup,
}

impl Game {
    pub fn new(bytes: (Vec<u8>, Vec<u8>)) -> Game {
        let (sheet, setup) = random::read(&bytes.0, &bytes.1);
        Game {
            bytes,
            sheet,
            setup,
        }
    }

    /// The SASwap sheet with a setup.
    pub fn saswap(blocks_per_day: u16, conduct: u8, stealth: u8) -> Game {
        let [low, high] = blocks_per_day.to_le_bytes();
        let setup = vec![low, high, conduct, stealth];
        Game::new((sheet::saswap(blocks_per_day), setup))
    }

    /// The case of these steps.
    pub fn case(&self, steps: &[[u8; 4]]) -> Case {
        let (sheet, setup) = self.bytes.clone();
        (sheet, setup, steps.concat())
    }

    fn inputs<'a>(&'a self, journal: &'a [u8]) -> Inputs<'a> {
        Inputs {
            sheet: &self.bytes.0,
            setup: &self.bytes.1,
            journal,
        }
    }
}

/// What was compared, all of it equal.
#[derive(Clone, Debug)]
pub struct Tally {
    /// The version that is held to the model.
    pub tested: Calls,
    /// Journals put to the calls, and walks.
    pub journals: usize,
    /// Positions whose open steps and report were compared.
    pub positions: usize,
    /// Steps whose acceptance or refusal was compared, each in its place.
    pub steps: usize,
    /// The accepted ones of those that were tried next in a position, by kind.
    pub accepted: [usize; 7],
    /// The answers of check, run, list and report by refusal.
    pub answers: [[usize; NUMBERS]; 4],
}

/// Counts that are all zero are left out.
impl fmt::Display for Tally {
    fn fmt(&self, to: &mut fmt::Formatter) -> fmt::Result {
        let (journals, positions, steps) = (self.journals, self.positions, self.steps);
        write!(
            to,
            "{journals} journals, {positions} positions, {steps} steps compared"
        )?;
        let [check, run, list, report] = &self.answers;
        let rows: [(&str, &[usize]); 5] = [
            ("open steps tried, by kind 1 to 7", &self.accepted),
            ("check, by refusal 0 to 32", check),
            ("run, by refusal 0 to 32", run),
            ("list, by refusal 0 to 32", list),
            ("report, by refusal 0 to 32", report),
        ];
        for (name, counts) in rows {
            if counts.iter().any(|&count| count > 0) {
                write!(to, "\n{name}: {counts:?}")?;
            }
        }
        Ok(())
    }
}

impl Tally {
    /// Nothing compared yet of this version.
    pub fn of(tested: Calls) -> Tally {
        Tally {
            tested,
            journals: 0,
            positions: 0,
            steps: 0,
            accepted: [0; 7],
            answers: [[0; NUMBERS]; 4],
        }
    }

    /// Each call has answered each of its refusals on sheets of two, and no other.
    pub fn assert_every_refusal(&self) {
        self.assert_refusals(false);
    }

    /// The same on sheets of three: 32 too, by all calls but check.
    pub fn assert_every_refusal_of_three(&self) {
        self.assert_refusals(true);
    }

    fn assert_refusals(&self, three: bool) {
        for (call, last) in [8, 24, 25, 25].into_iter().enumerate() {
            for (number, &count) in self.answers[call].iter().enumerate() {
                let own = number <= last || three && number == 32 && call > 0;
                assert_eq!(count > 0, own, "call {call}, {number}: {self}");
            }
        }
    }

    /// One call with a buffer of so many bytes, filled at random, against an answer of the model's.
    fn compare(
        &mut self,
        random: &mut Random,
        call: Call,
        length: usize,
        inputs: &Inputs,
        model: impl Fn(&mut [u8]) -> u32,
    ) -> u32 {
        let mut buffer = random.bytes(GUARD + length + GUARD);
        let mut modelled = buffer.clone();
        let lent = &mut buffer[GUARD..GUARD + length];
        let answer = self.tested.answer(call, inputs, lent);
        let expected = model(&mut modelled[GUARD..GUARD + length]);
        assert_eq!(answer, expected, "{call:?}, {length} bytes, of {inputs:?}");
        assert_eq!(buffer, modelled, "{call:?}, {length} bytes, of {inputs:?}");
        self.answers[call as usize][(answer >> 16) as usize] += 1;
        answer
    }

    /// One call, against the model's.
    fn call(&mut self, random: &mut Random, call: Call, length: usize, inputs: &Inputs) -> u32 {
        self.compare(random, call, length, inputs, |out| {
            MODEL.answer(call, inputs, out)
        })
    }

    /// One case through check and run.
    pub fn run(&mut self, random: &mut Random, case: &Case) {
        let inputs = Inputs::of(case);
        self.call(random, Call::Check, 0, &inputs);
        let run = self.call(random, Call::Run, 0, &inputs);
        let refused_step = (11..=23).contains(&(run >> 16));
        self.steps += (run & 0xffff) as usize + usize::from(refused_step);
        self.journals += 1;
    }

    /// One case through all four calls, with buffers of each length.
    pub fn case(&mut self, random: &mut Random, case: &Case) {
        self.run(random, case);
        let inputs = Inputs::of(case);
        for call in [Call::List, Call::Report] {
            for length in lengths(needed(call, &inputs)) {
                self.call(random, call, length, &inputs);
            }
        }
    }

    /// One position: list and report, each with an exact buffer and with another, then steps that could come next: all
    /// open ones and so many of those that get each refusal. After a long journal one of each is tried.
    pub fn position(&mut self, random: &mut Random, game: &Game, course: &Course, tries: usize) {
        let journal = course.accepted.concat();
        let inputs = game.inputs(&journal);
        let open = open::steps(&game.sheet, &game.setup, &course.position);
        let rows = report::bytes(&game.sheet, &game.setup, course);
        assert!(open.len() <= most_open(&game.sheet), "{inputs:?}");
        let expected = |call, output: &mut [u8]| match call {
            Call::List => calls::list_answer(output, &open),
            _ => calls::report_answer(output, &rows),
        };
        for (call, needed) in [(Call::List, 4 * open.len()), (Call::Report, rows.len())] {
            for length in [needed, random.pick(&lengths(needed))] {
                self.compare(random, call, length, &inputs, |out| expected(call, out));
            }
        }
        assert_claims(game, course, &rows);
        self.positions += 1;
        self.next_steps(random, game, course, tries);
    }

    /// Steps that could come next, each in a run of its own.
    fn next_steps(&mut self, random: &mut Random, game: &Game, course: &Course, tries: usize) {
        let (sheet, setup, position) = (&game.sheet, &game.setup, &course.position);
        let long = course.accepted.len() > SHORT;
        let mut tried = Vec::new();
        for (number, steps) in random::by_refusal(sheet, setup, position) {
            if number == 0 && !long {
                tried.extend(strange(random, sheet, &steps));
            }
            let most = match number {
                _ if long => 1,
                0 => steps.len(),
                11 => tries.min(TRIES),
                _ => tries,
            };
            tried.extend(some(random, steps, most));
        }
        for step in tried {
            self.next_step(random, game, course, &step);
        }
    }

    /// After a position every step with its fields in range, and every step that differs from one of these in one byte.
    pub fn bytes_of_steps(&mut self, random: &mut Random, game: &Game, course: &Course) {
        let mut in_range = random::by_refusal(&game.sheet, &game.setup, &course.position);
        in_range.remove(&11);
        let places = || (0..4).flat_map(|place| (0..=255).map(move |value| (place, value)));
        let around = |step: [u8; 4]| {
            places().map(move |(place, value)| {
                let mut changed = step;
                changed[place] = value;
                changed
            })
        };
        let steps = in_range.into_values().flatten().flat_map(around);
        for step in steps.collect::<BTreeSet<_>>() {
            self.next_step(random, game, course, &step);
        }
    }

    /// One more step.
    fn next_step(&mut self, random: &mut Random, game: &Game, course: &Course, step: &[u8; 4]) {
        let number = step::refusal(&game.sheet, &game.setup, &course.position, step);
        let journal = [&course.accepted[..], &[*step]].concat().concat();
        let accepted = usize::from(number == 0);
        let count = course.accepted.len() + accepted;
        self.compare(random, Call::Run, 0, &game.inputs(&journal), |_| {
            calls::number(number, count)
        });
        self.steps += 1;
        self.accepted[usize::from(step[0].clamp(1, 7)) - 1] += accepted;
    }

    /// A walk of so many turns over open steps, with each position that it comes to.
    pub fn walk(&mut self, random: &mut Random, game: &Game, manner: Manner, turns: usize) {
        let manner = Manner { wrong: 0, ..manner };
        let mut course = Course::fresh(&game.sheet);
        self.position(random, game, &course, 2);
        for _ in 0..turns {
            let before = course.accepted.len();
            random::more(random, &game.sheet, &game.setup, &mut course, &manner, LEAP);
            if course.accepted.len() > before {
                self.position(random, game, &course, 2);
            }
        }
        self.journals += 1;
    }
}

/// The most open steps of a sheet. Of two parties: 8 of each transaction, and a gift of each signature but one. Of three:
/// 15 of each transaction, two gifts of each signature, and a block.
fn most_open(sheet: &Sheet) -> usize {
    let (n, s) = (usize::from(sheet.count()), usize::from(sheet.signatures));
    match sheet.parties.len() {
        2 => 8 * n + s - 1,
        _ => 15 * n + 2 * s + 1,
    }
}

/// Demand 3 in one position: the ledger agrees with it and with its report, no rivals stand together and no lock is early; under
/// careful conduct a secret is kept and nobody is paid from two coins.
fn assert_claims(game: &Game, course: &Course, report: &[u8]) {
    let (sheet, setup, position) = (&game.sheet, &game.setup, &course.position);
    let accepted = &course.accepted;
    let agrees = claims::ledger_agrees(sheet, setup, course, report);
    assert!(agrees, "ledger after {accepted:?}");
    let broken = invariants::false_on_any_sheet(sheet, setup, position);
    assert!(broken.is_empty(), "{broken:?} after {accepted:?}");
    if setup.conduct == Conduct::Careful {
        let out = claims::both_secrets_out(sheet, position);
        assert!(!out, "both secrets out after {accepted:?}");
        let twice = claims::paid_twice(sheet, position);
        assert!(!twice, "one party paid twice after {accepted:?}");
    }
}

/// So many of the steps at random, or all where they are no more.
fn some(random: &mut Random, mut steps: Vec<[u8; 4]>, most: usize) -> Vec<[u8; 4]> {
    match steps.len() <= most {
        true => steps,
        false => (0..most)
            .map(|_| steps.swap_remove(random.below(steps.len())))
            .collect(),
    }
}

/// Mostly wrong steps: open ones with a byte changed, one not far from the ranges, and any four bytes.
fn strange(random: &mut Random, sheet: &Sheet, open: &[[u8; 4]]) -> Vec<[u8; 4]> {
    let mut steps = some(random, open.to_vec(), TRIES);
    for step in &mut steps {
        random::damage_bytes(random, step, 1);
    }
    steps.push(random::near_step(random, sheet));
    steps.push(std::array::from_fn(|_| random.byte()));
    steps
}
