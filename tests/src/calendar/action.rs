//! What a side can do about its payout, and until when.

use super::clock::estimate;
use super::outages::label;
use super::stand::{Stand, Standing};
use super::view::View;
use super::words::{destination_name, refusal};
use super::Question;
use crate::model::heights::NEVER;
use crate::model::journal::MOST_BYTES;
use crate::model::step;
use crate::slack::row::LONGEST;
use crate::swapfile;

/// The refusals that pass with time, "the parent is not there" and "the lock height is not reached"; and that of a reached
/// deadline, after which a hand-in is left.
const PARENT: u32 = 15;
const LOCK: u32 = 17;
const DEADLINE: u32 = 18;
const JOURNAL_LENGTH: u32 = 24;

/// What can be done: a step in the words of a journal's text, or why there is none.
#[derive(Clone, Debug, PartialEq, Eq)]
pub enum Action {
    /// The step; once the parent is sent and after this block, where it is not open yet; by this block, where there is an
    /// end.
    Do {
        step: String,
        open: bool,
        once: Option<u8>,
        after: Option<u32>,
        by: Option<u32>,
    },
    /// "nothing to do", and why.
    Done(&'static str),
    /// "nothing can be done now", and why.
    Nothing(String),
    /// "nothing secured yet" or "given up".
    NoPayout(&'static str),
}

impl View {
    pub fn action(&self, margin: u32, side: u8) -> Action {
        let stand = self.stand(side);
        let words = |step: &[u8; 4]| swapfile::step_words(&self.names, step);
        if let Some((step, _)) = stand.help {
            return Action::Do {
                step: words(&step),
                open: true,
                once: None,
                after: None,
                by: self.by(margin, &stand),
            };
        }
        match (stand.standing, stand.counted) {
            (Standing::Paid, _) if self.is_paid(side) => Action::Done("paid"),
            (Standing::Paid, _) => Action::Done("sent"),
            (Standing::Kept, Some((t, destination))) => {
                self.own(margin, &stand, t, side, destination)
            }
            (standing, _) => Action::NoPayout(standing.word()),
        }
    }

    /// About what is counted on, where no open step makes the slack more.
    fn own(&self, margin: u32, stand: &Stand, t: u8, side: u8, destination: u8) -> Action {
        let swap = self.swap();
        if swap.sent_to(t) == Some(destination) {
            return Action::Done("sent");
        }
        if stand.slack == LONGEST {
            return Action::Done("no deadline ahead");
        }
        let by = self.by(margin, stand);
        let make = |kind: u8, open: bool, once: Option<u8>, after: Option<u32>| Action::Do {
            step: swapfile::step_words(&self.names, &[kind, side, t, destination]),
            open,
            once,
            after,
            by,
        };
        let is_open = |kind: &u8| self.open().contains(&[*kind, side, t, destination]);
        if let Some(kind) = [3, 4].iter().find(|kind| is_open(kind)) {
            return make(*kind, true, None, None);
        }
        let ask = |kind: u8| self.refusal(&[kind, side, t, destination]);
        let (kind, number) = match ask(3) {
            DEADLINE if swap.setup.stealth => (4, ask(4)),
            number => (3, number),
        };
        match number {
            PARENT | LOCK => {
                let parent = swap.sheet.transaction(t).parent;
                let block = swap.soonest_block(t) - 1;
                make(
                    kind,
                    false,
                    parent.filter(|_| number == PARENT),
                    Some(block).filter(|&block| block > self.mined()),
                )
            }
            _ => Action::Nothing(refusal(number).1.to_string()),
        }
    }

    /// The last block that is safe with the margin: that after the slack, and no later than the deadline of another
    /// transaction that is sent to help.
    pub fn by(&self, margin: u32, stand: &Stand) -> Option<u32> {
        let next = self.mined() + 1;
        let end = stand.is_bounded().then_some(next + stand.slack)?;
        let other = stand.help.and_then(|(step, _)| {
            let another = stand.counted.map(|(t, _)| t) != Some(step[2]);
            (step[0] >= 3 && another).then(|| self.swap().soonest_deadline(step[2]))
        });
        let end = end.min(other.unwrap_or(NEVER));
        Some(end.saturating_sub(margin).max(next))
    }

    /// The refusal of a step that is not open.
    fn refusal(&self, bytes: &[u8; 4]) -> u32 {
        let outcome = self.outcome();
        match outcome.course.accepted.len() * 4 < MOST_BYTES {
            true => step::refusal(
                &outcome.sheet,
                &outcome.setup,
                &outcome.course.position,
                bytes,
            ),
            false => JOURNAL_LENGTH,
        }
    }

    /// In words: "do: alice sends refund_2 to the pool, by block 588, then free any".
    fn what_to_do(&self, question: &Question, side: u8) -> String {
        let stand = self.stand(side);
        let taken = stand.counted.and_then(|(t, destination)| {
            let sent = self.swap().sent_to(t);
            sent.filter(|&sent| sent != destination)
        });
        let taken = taken.map(|payee| format!("sent, pays {}; ", destination_name(payee)));
        let words = match self.action(question.margin, side) {
            Action::Done(reason) => format!("nothing to do: {reason}"),
            Action::Nothing(reason) => format!("nothing can be done now: {reason}"),
            Action::NoPayout(standing) => standing.to_string(),
            Action::Do {
                step,
                open,
                once,
                after,
                by,
            } => {
                let once =
                    once.map(|parent| format!(", once {} is sent", self.names.transaction(parent)));
                let after = after.map(|block| format!(", after block {}", self.height(block)));
                let by = by.map(|by| match open && by == self.mined() + 1 {
                    true => ", now".to_string(),
                    false => {
                        let time = estimate(question.clock, u64::from(by - self.mined()));
                        format!(", by block {}{time}", self.height(by))
                    }
                });
                let then = stand
                    .help
                    .map(|(_, then)| format!(", then free {}", label(then, question.margin)));
                let terms = [once, after, by, then].map(Option::unwrap_or_default);
                format!("do: {step}{}", terms.concat())
            }
        };
        taken.unwrap_or_default() + &words
    }

    /// After what to do, what can come else, and what is sent for another party.
    pub fn payout(&self, question: &Question, side: u8) -> String {
        let (stand, after) = (self.stand(side), self.after());
        let mut words = self.what_to_do(question, side);
        if let Some((t, destination)) = stand.counted {
            if stand.is_bounded() && after.swap.sent_to(t) != Some(destination) {
                let otherwise = after.otherwise_if_any(t);
                words += &otherwise.map_or(String::new(), |words| format!("; {words}"));
            }
            words += &after.in_the_way(t, side);
        }
        let counted = stand.counted.map(|(t, _)| t);
        let others = (0..after.swap.sheet.count()).filter(|&t| Some(t) != counted);
        for t in others {
            if let Some(payee) = after.swap.taken(t, side) {
                let (name, payee) = (self.names.transaction(t), destination_name(payee));
                words += &format!("; {name} is sent, pays {payee}");
            }
        }
        words
    }
}
