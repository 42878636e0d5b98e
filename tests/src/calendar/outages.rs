//! How long and when the box of a side can be off, over all its swaps.

use super::clock::{estimate, Clock};
use super::stand::Stand;
use super::view::View;
use super::words::party_name;
use super::{Found, Length, Question};
use crate::model::{ALICE, BOB, CAROL};
use crate::slack::row::LONGEST;
use std::collections::BTreeSet;

/// So many blocks of slack, with the margin left after them: "143", "any" or "none".
pub fn label(slack: u32, margin: u32) -> String {
    match slack.checked_sub(margin) {
        _ if slack == LONGEST => "any".to_string(),
        None => "none".to_string(),
        Some(blocks) => blocks.to_string(),
    }
}

/// The same of a side; "-" where no payout is secured.
pub fn label_of(stand: &Stand, margin: u32) -> String {
    match stand.standing.is_secured() {
        true => label(stand.slack, margin),
        false => "-".to_string(),
    }
}

/// The swaps of a desk that show a side.
fn of_side(swaps: &[(String, Found)], side: u8) -> Vec<(&str, &View)> {
    let shown = swaps.iter().filter_map(|(name, found)| match found {
        Found::Sound(view, sides) if sides.contains(&side) => Some((name.as_str(), &**view)),
        _ => None,
    });
    shown.collect()
}

/// The first swap that shows the side with the least slack, if some outage is longer than that.
pub fn longest(swaps: &[(String, Found)], side: u8) -> Option<(&str, &View, Stand)> {
    let shown = of_side(swaps, side).into_iter();
    let each = shown.map(|(name, view)| (name, view, view.stand(side)));
    let bounded = each.filter(|(_, _, stand)| stand.is_bounded());
    bounded.min_by_key(|(_, _, stand)| stand.slack)
}

/// How many swaps have no payout of the side to lose.
pub fn unsecured(swaps: &[(String, Found)], side: u8) -> usize {
    let shown = of_side(swaps, side).into_iter();
    let lost = shown.filter(|(_, view)| !view.stand(side).standing.is_secured());
    lost.count()
}

/// A stretch in blocks from now; it may have no end.
pub type Slot = Option<(u32, Option<u32>)>;

/// The stretches in which an outage has no warning: as the swaps stand, and with the open steps taken that help.
#[derive(Clone, Debug, PartialEq, Eq)]
pub struct Slots {
    pub now: Slot,
    pub done: Slot,
}

/// By the outages that begin after 0, 1, 2 .. blocks: each is a warning where it ends, with its margin, after some slack, and
/// then every later one is.
pub fn slots(swaps: &[(String, Found)], length: Length, margin: u32, side: u8) -> Slots {
    let views = of_side(swaps, side).into_iter();
    let bounded: Vec<(u32, Stand)> = views
        .map(|(_, view)| (length.blocks(&view.outcome().setup), view.stand(side)))
        .filter(|(_, stand)| stand.is_bounded())
        .collect();
    let longest = bounded.iter().map(|(blocks, _)| *blocks).max();
    let stretch = |slack: fn(&Stand) -> u32| {
        let warns = |wait: u32| {
            let mut each = bounded.iter();
            each.any(|(blocks, stand)| {
                slack(stand) < LONGEST && slack(stand) < wait + blocks + margin
            })
        };
        match (0..=LONGEST).find(|&wait| warns(wait)) {
            None => Some((1, None)),
            Some(0) => None,
            Some(wait) => Some((1, Some(wait - 1 + longest.expect("a swap")))),
        }
    };
    Slots {
        now: stretch(|stand| stand.slack),
        done: stretch(Stand::done),
    }
}

/// The sides that some sound swap shows.
pub fn sides(swaps: &[(String, Found)]) -> Vec<u8> {
    let sides = [ALICE, BOB, CAROL].into_iter();
    sides
        .filter(|&side| !of_side(swaps, side).is_empty())
        .collect()
}

/// The height at which all sound swaps stand, where it is one for all and of one sort.
fn same_height(swaps: &[(String, Found)]) -> Option<u32> {
    let heights = swaps.iter().filter_map(|(_, found)| match found {
        Found::Sound(view, _) => Some((
            view.base().is_some(),
            view.base().unwrap_or(0) + view.mined(),
        )),
        Found::Faulty(..) => None,
    });
    let heights: BTreeSet<(bool, u32)> = heights.collect();
    let first = heights.first().map(|&(_, height)| height);
    first.filter(|_| heights.len() == 1)
}

/// The lines on how long and when, for each side.
pub fn lines(swaps: &[(String, Found)], question: &Question) -> Vec<String> {
    let mut lines = Vec::new();
    let faulty = |(_, found): &&(String, Found)| matches!(found, Found::Faulty(..));
    let faulty = match swaps.iter().filter(faulty).count() {
        0 => String::new(),
        count => format!("; {count} refused or unreadable not looked at"),
    };
    for side in sides(swaps) {
        let unsecured = match unsecured(swaps, side) {
            0 => String::new(),
            count => format!("; {count} with no payout secured"),
        };
        let (name, end) = (party_name(side), unsecured + &faulty);
        let (blocks, bound) = longest_words(swaps, question.margin, side);
        lines.push(format!(
            "{name}: longest outage from now without a warning: {blocks}{bound}{end}"
        ));
        if let Some(length) = question.slots {
            let slots = slots(swaps, length, question.margin, side);
            let words = |slot: Slot| stretch(slot, same_height(swaps), question.clock);
            let now = match slots.now {
                None => words(None),
                slot => format!("has no warning {}", words(slot)),
            };
            let done = match slots.done == slots.now {
                true => String::new(),
                false => format!("; with what helps now done, {}", words(slots.done)),
            };
            let length = length.words();
            lines.push(format!("{name}: an outage of {length} {now}{done}{end}"));
        }
    }
    lines
}

/// The longest outage, and what bounds it.
fn longest_words(swaps: &[(String, Found)], margin: u32, side: u8) -> (String, String) {
    let Some((name, view, stand)) = longest(swaps, side) else {
        return ("any".to_string(), String::new());
    };
    let blocks = match label(stand.slack, margin) {
        label if label == "none" => label,
        label if label == "1" => "1 block".to_string(),
        label => format!("{label} blocks"),
    };
    let counted = stand.counted.map_or(String::new(), |(t, _)| {
        format!(", counting on {}", view.names.transaction(t))
    });
    (blocks, format!(", bounded by {name}{counted}"))
}

fn stretch(slot: Slot, now: Option<u32>, clock: Option<Clock>) -> String {
    let block = |block: u32| match now {
        None => format!("+{block}"),
        Some(now) => (now + block).to_string() + &estimate(clock, block.into()),
    };
    match slot {
        None => "has a warning wherever it lies".to_string(),
        Some((first, None)) => format!("in blocks from {} on", block(first)),
        Some((first, Some(last))) => format!("in blocks {} to {}", block(first), block(last)),
    }
}
