//! The lines of a swap whose journal is accepted whole.

use super::after::After;
use super::outages::label_of;
use super::rule::{Kind, Outage, Swap};
use super::stand::{Stand, Standing};
use super::words::{destination_name, height, party_name, payees_name, Names};
use super::{Question, Totals};
use crate::model::calls::Outcome;
use crate::model::heights::{self, NEVER};
use crate::model::setup::Conduct;
use crate::model::{first_open, open, report, CONTRACT};
use crate::swapfile;

/// A swap whose journal is accepted whole.
pub struct View {
    pub names: Names,
    outcome: Outcome,
    open: Vec<[u8; 4]>,
    /// Where the sides that are shown stand.
    stands: Vec<(u8, Stand)>,
    /// "the real chain's height when its journal was empty", where it is known.
    base: Option<u32>,
}

impl View {
    pub fn new(files: [&[u8]; 3], outcome: Outcome, sides: &[u8], base: Option<u32>) -> View {
        let position = &outcome.course.position;
        let open = open::steps(&outcome.sheet, &outcome.setup, position);
        let sides = sides.iter();
        View {
            names: Names::of(files[0], outcome.setup.blocks_per_day as u16),
            stands: sides
                .map(|&side| (side, Stand::known(files, &outcome, &open, side)))
                .collect(),
            open,
            outcome,
            base,
        }
    }

    /// Where a side that is shown stands.
    pub fn stand(&self, side: u8) -> Stand {
        let found = self.stands.iter().find(|(of, _)| *of == side);
        found.expect("a side that is shown").1
    }

    /// Whether the outage is a warning for the side.
    pub fn warns(&self, question: &Question, side: u8) -> bool {
        self.stand(side).warns(self.outage(question).reach)
    }

    pub fn base(&self) -> Option<u32> {
        self.base
    }

    pub fn outcome(&self) -> &Outcome {
        &self.outcome
    }

    pub fn open(&self) -> &[[u8; 4]] {
        &self.open
    }

    /// Whether the side has an open step that sends the transaction.
    pub fn can_send(&self, t: u8, side: u8) -> bool {
        let sends = |step: &[u8; 4]| [3, 4].contains(&step[0]) && step[1] == side && step[2] == t;
        self.open.iter().any(sends)
    }

    pub fn mined(&self) -> u32 {
        self.outcome.course.position.mined
    }

    pub fn swap(&self) -> Swap<'_> {
        Swap {
            sheet: &self.outcome.sheet,
            setup: &self.outcome.setup,
            position: &self.outcome.course.position,
        }
    }

    pub fn after(&self) -> After<'_> {
        After {
            swap: self.swap(),
            names: &self.names,
            open: &self.open,
            base: self.base.unwrap_or(0),
        }
    }

    pub fn outage(&self, question: &Question) -> Outage {
        Outage::of(question, &self.outcome.setup, self.mined(), self.base)
    }

    pub fn lines(&self, question: &Question, sides: &[u8]) -> Vec<String> {
        let mut lines = self.inputs();
        lines.extend(self.position());
        for party in open::actors(&self.outcome.sheet) {
            lines.extend(self.steps(party));
        }
        lines.extend(self.payouts());
        for &side in sides {
            lines.extend(self.deadlines(question, side));
            let (name, stand) = (party_name(side), self.stand(side));
            let warning = if self.warns(question, side) {
                "WARNING: "
            } else {
                ""
            };
            let counting = stand.counted.map_or(String::new(), |(t, _)| {
                format!("counting on {}, ", self.names.transaction(t))
            });
            let words = self.payout(question, side);
            lines.push(format!("  payout of {name}: {warning}{counting}{words}"));
            let label = label_of(&stand, question.margin);
            lines.push(format!(
                "  longest outage from now without a warning for {name}: {label}"
            ));
        }
        lines
    }

    fn inputs(&self) -> Vec<String> {
        let Outcome {
            sheet,
            setup,
            course,
            ..
        } = &self.outcome;
        let kind = match (sheet.parties.len(), self.names.saswap) {
            (3, _) => "three parties",
            (_, true) => "SASwap",
            (_, false) => "other",
        };
        let conduct = match setup.conduct {
            Conduct::Open => "open",
            Conduct::Loose => "loose",
            Conduct::Careful => "careful",
        };
        let (blocks_per_day, stealth) = (setup.blocks_per_day, u8::from(setup.stealth));
        let (steps, mined) = (course.accepted.len(), self.mined());
        let height = match self.base {
            None => String::new(),
            Some(base) => format!(", height {}", base + mined),
        };
        vec![
            format!("  sheet: {kind}, transactions {}", sheet.count()),
            format!(
                "  setup: blocks per day {blocks_per_day}, conduct {conduct}, stealth {stealth}"
            ),
            format!("  journal: steps accepted {steps}, blocks mined {mined}{height}"),
        ]
    }

    fn position(&self) -> Vec<String> {
        let head = [
            "transaction",
            "status",
            "payee",
            "block",
            "lock height",
            "deadline",
        ];
        let head = head.map(str::to_string);
        let mut lines = vec!["  position".to_string(), row(&head)];
        lines.extend((0..self.outcome.sheet.count()).map(|t| row(&self.cells(t))));
        lines
    }

    /// A height of the real chain, where the base is known.
    pub fn height(&self, block: u32) -> String {
        height(self.base.unwrap_or(0), block)
    }

    /// A transaction's line of the position.
    fn cells(&self, t: u8) -> [String; 6] {
        let Outcome {
            sheet,
            setup,
            course,
            ..
        } = &self.outcome;
        let position = &course.position;
        let (payee, block) = match position.confirmed.get(&t) {
            None => ("-".to_string(), "-".to_string()),
            Some(c) => (
                destination_name(c.destination).to_string(),
                self.height(c.block),
            ),
        };
        [
            self.names.transaction(t),
            status(report::status(sheet, position, t)),
            payee,
            block,
            self.height(heights::lock_height(sheet, setup, position, t)),
            self.height(heights::deadline(sheet, setup, position, t)),
        ]
    }

    fn steps(&self, party: u8) -> Vec<String> {
        let mut lines = vec![format!("  steps that {} could take now", party_name(party))];
        let open = self.open.iter().filter(|step| step[1] == party);
        lines.extend(open.map(|step| format!("    {}", swapfile::step_words(&self.names, step))));
        or_none(lines, 1)
    }

    fn payouts(&self) -> Vec<String> {
        let Outcome { sheet, course, .. } = &self.outcome;
        let holders = report::holders_from_position(sheet, &course.position);
        let payouts = report::payouts(&holders);
        let mut lines = vec!["  payouts so far".to_string()];
        for (coin, holder) in holders {
            let name = self.names.transaction(coin);
            let words = match (holder, payouts.get(&coin)) {
                (None, _) => "none, not opened yet".to_string(),
                (Some(_), None) => format!("none, in the contract {}", self.last(coin)),
                (_, Some(&party)) => {
                    format!("paid to {} {}", party_name(party), self.last(coin))
                }
            };
            lines.push(format!("    coin of {name}: {words}"));
        }
        lines
    }

    /// The last confirmed transaction of a coin: the one in the latest block and, there, with the highest number,
    /// since a parent has a lower one.
    fn last(&self, coin: u8) -> String {
        let Outcome { sheet, course, .. } = &self.outcome;
        let confirmed = course.position.confirmed.iter();
        let of_coin = confirmed.filter(|(&t, _)| sheet.coin(t) == coin);
        let last = of_coin.max_by_key(|(&t, confirmation)| (confirmation.block, t));
        let (&t, confirmation) = last.expect("the coin is opened");
        format!(
            "by {} in block {}",
            self.names.transaction(t),
            self.height(confirmation.block)
        )
    }

    /// Every transaction that is neither confirmed nor dead.
    fn deadlines(&self, question: &Question, side: u8) -> Vec<String> {
        let outage = self.outage(question);
        let blocks = [outage.first, outage.last].map(|block| self.height(block));
        let words = match outage.last < outage.first {
            true => "no outage".to_string(),
            false => format!("outage in blocks {} to {}", blocks[0], blocks[1]),
        };
        let margin = match question.margin {
            0 => String::new(),
            blocks => format!(", margin {blocks}"),
        };
        let name = party_name(side);
        let mut lines = vec![
            format!("  deadlines for {name}; {words}{margin}"),
            format!("    {:<22}{:<8}to be confirmed", "transaction", "pays"),
        ];
        let all = 0..self.outcome.sheet.count();
        lines.extend(all.filter_map(|t| self.deadline(&outage, t, side)));
        or_none(lines, 2)
    }

    fn deadline(&self, outage: &Outage, t: u8, side: u8) -> Option<String> {
        let after = self.after();
        let kind = after.swap.kind(outage, t, side);
        let soonest = after.swap.soonest_deadline(t);
        let latest = after.height(soonest);
        let mut words = match kind {
            Kind::Settled => return None,
            Kind::Covered | Kind::Ahead if soonest > self.mined() => window(&after, t),
            Kind::Covered | Kind::Ahead => format!(
                "block {latest} was the latest, a hand-in may save it, {}",
                after.otherwise(t)
            ),
            Kind::Taken | Kind::Sent => "sent".to_string(),
            Kind::Free if soonest == NEVER => "no deadline".to_string(),
            Kind::Free => format!("PASSED: block {latest} was the latest"),
            Kind::Others if self.outcome.sheet.parties.len() == 2 => "the other side's".to_string(),
            Kind::Others => "another side's".to_string(),
        };
        words += &self.standing(t, side);
        if kind != Kind::Others {
            words += &after.in_the_way(t, side);
        }
        let (name, pays) = (
            self.names.transaction(t),
            payees_name(after.swap.sheet, after.swap.can_pay(t)),
        );
        Some(format!("    {name:<22}{pays:<8}{words}"))
    }

    /// Where a transaction stands.
    fn standing(&self, t: u8, side: u8) -> String {
        let position = &self.outcome.course.position;
        let sendable = self.can_send(t, side);
        let since = match sendable {
            true => self.open_since(t),
            false => String::new(),
        };
        let paying = match self.swap().sent_to(t) {
            None | Some(CONTRACT) => String::new(),
            Some(payee) => format!(", paying {}", party_name(payee)),
        };
        let standing = [
            ("; in the pool", position.in_pool(t)),
            ("; in the block being filled", position.in_block(t)),
            (paying.as_str(), true),
            ("; can be sent now", sendable),
        ];
        let standing = standing.iter().filter(|(_, holds)| *holds);
        standing.map(|(words, _)| *words).collect::<String>() + &since
    }

    /// Since when it has been open, by Slip 9; nothing where it never was, as below a parent in the pool.
    fn open_since(&self, t: u8) -> String {
        let Outcome {
            sheet,
            setup,
            course,
            ..
        } = &self.outcome;
        let along = first_open::positions(sheet, setup, &course.accepted);
        match first_open::count(sheet, setup, &along, t) {
            NEVER => String::new(),
            blocks => format!(", open since block {}", self.height(blocks)),
        }
    }

    /// What is counted of a side.
    pub fn totals(&self, question: &Question, side: u8) -> Totals {
        let is = |standing: Standing| usize::from(self.stand(side).standing == standing);
        Totals {
            warnings: usize::from(self.warns(question, side)),
            not_yet: is(Standing::NotYet),
            given_up: is(Standing::GivenUp),
            ..Totals::default()
        }
    }
}

/// The window of blocks in which a transaction can be confirmed, and what can be confirmed after it.
fn window(after: &After, t: u8) -> String {
    let [from, to] = [after.swap.soonest_block(t), after.swap.soonest_deadline(t)];
    let [from, to] = [from, to].map(|block| after.height(block));
    let hangs_on = after.hangs_on(" at the soonest", t);
    let otherwise = after.otherwise(t);
    format!("in blocks {from} to {to}{hangs_on}, {otherwise}")
}

/// A line of the position.
fn row(cells: &[String; 6]) -> String {
    let [name, status, payee, block, lock_height, deadline] = cells;
    format!("    {name:<22}{status:<12}{payee:<10}{block:>8}{lock_height:>13}{deadline:>10}")
}

fn status(status: u8) -> String {
    let words = [(1, "pool"), (2, "block"), (4, "confirmed"), (8, "dead")];
    let standing = words.iter().filter(|(bit, _)| status & bit != 0);
    let standing: Vec<&str> = standing.map(|(_, word)| *word).collect();
    match standing.is_empty() {
        true => "-".to_string(),
        false => standing.join("+"),
    }
}

/// The lines, with "none" where only so many of a heading are there.
fn or_none(mut lines: Vec<String>, heading: usize) -> Vec<String> {
    if lines.len() == heading {
        lines.push("    none".to_string());
    }
    lines
}
