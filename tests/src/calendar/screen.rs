//! The first screen: a line for each swap and side.

use super::outages::label_of;
use super::stand::Standing;
use super::view::View;
use super::words::party_name;
use super::{Found, Question, Start};
use crate::model::heights::NEVER;
use std::collections::BTreeSet;

/// The lines in their order: faulty swaps, warnings, other slacks that have an end, payouts given up, none secured yet, the
/// rest; then by slack, swap and side.
type Key = (u32, u32, usize, u8);

/// What the calendar prints before the totals.
pub fn text(swaps: &[(String, Found)], question: &Question) -> String {
    let mut lines: Vec<(Key, String)> = Vec::new();
    let mixed = is_mixed(swaps);
    for (place, (name, found)) in swaps.iter().enumerate() {
        match found {
            Found::Faulty(mark, reason) => {
                let text = format!("{mark:<11}{name:<16} {reason}");
                lines.push(((0, 0, place, 0), text));
            }
            Found::Sound(view, sides) => {
                for &side in sides {
                    let mut text = line(name, view, question, side);
                    if mixed && view.base().is_none() {
                        text += "; blocks of its own, no base";
                    }
                    let slack = view.stand(side).slack;
                    lines.push(((urgency(view, question, side), slack, place, side), text));
                }
            }
        }
    }
    lines.sort();
    let head = cells("", "swap", "side", "counts on");
    let head = format!(
        "{head}{:>8}{:>8}{:>7}{:>7}  what to do",
        "from", "to", "left", "free"
    );
    let lines = lines.into_iter().map(|(_, text)| text);
    let all: Vec<String> = [asked(question), head].into_iter().chain(lines).collect();
    all.join("\n") + "\n"
}

/// Whether some swaps have a base and others none.
fn is_mixed(swaps: &[(String, Found)]) -> bool {
    let sound = swaps.iter().filter_map(|(_, found)| match found {
        Found::Sound(view, _) => Some(view.base().is_some()),
        Found::Faulty(..) => None,
    });
    sound.collect::<BTreeSet<bool>>().len() == 2
}

fn cells(mark: &str, name: &str, side: &str, transaction: &str) -> String {
    format!("{mark:<11}{name:<16} {side:<6}{transaction:<21}")
}

/// What is asked, in words.
fn asked(question: &Question) -> String {
    let length = question.length.words();
    let start = match question.start {
        Start::After(0) => "from the next block".to_string(),
        Start::After(1) => "after the next block".to_string(),
        Start::After(blocks) => format!("after the next {blocks} blocks"),
        Start::Height(block) => format!("from block {block}"),
    };
    let margin = match question.margin {
        0 => String::new(),
        blocks => format!(", margin {blocks}"),
    };
    let clock = question.clock.map_or(String::new(), |clock| clock.words());
    format!("outage: {length} {start}{margin}{clock}")
}

fn urgency(view: &View, question: &Question, side: u8) -> u32 {
    let stand = view.stand(side);
    match stand.standing {
        _ if view.warns(question, side) => 1,
        _ if stand.is_bounded() => 2,
        Standing::GivenUp => 3,
        Standing::NotYet => 4,
        _ => 5,
    }
}

/// The line of a side of a swap: the window of what it counts on, its slack, what to do.
fn line(name: &str, view: &View, question: &Question, side: u8) -> String {
    let mark = match view.warns(question, side) {
        true => "WARNING",
        false => "",
    };
    let swap = view.swap();
    let counted = view.stand(side).counted.map(|(t, _)| t);
    let or_none = |words: Option<String>| words.unwrap_or("-".to_string());
    let transaction = or_none(counted.map(|t| view.names.transaction(t)));
    let from = or_none(counted.map(|t| view.height(swap.soonest_block(t))));
    let to = or_none(counted.map(|t| view.height(swap.soonest_deadline(t))));
    let deadline = counted.map(|t| swap.soonest_deadline(t));
    let left = deadline.filter(|&deadline| deadline != NEVER);
    let left = or_none(left.map(|to| to.saturating_sub(view.mined()).to_string()));
    let free = label_of(&view.stand(side), question.margin);
    let start = cells(mark, name, party_name(side), &transaction);
    let last = view.payout(question, side);
    format!("{start}{from:>8}{to:>8}{left:>7}{free:>7}  {last}")
}
