//! The calendar's JSON by the model, and its words for the page.

use super::action::Action;
use super::after::After;
use super::clock::iso;
use super::outages::{self, Slot};
use super::rule::Kind;
use super::stand::Stand;
use super::view::View;
use super::words::{destination_name, party_name};
use super::{found, found_all, totals, Found, Length, Question, Start};
use crate::json::Value;
use crate::model::calls;
use crate::model::heights::{self, NEVER};
use crate::model::setup::Conduct;
use crate::model::sheet::payee_bit;
use crate::model::{report, ALICE, BOB, CAROL};
use crate::samples::Files;
use crate::slack::row::LONGEST;

/// "one object a swap", with what is asked and the totals before them.
pub fn json(swaps: &[(String, Files)], question: &Question) -> Value {
    let found = found_all(swaps, question);
    let totals = totals(&found, question);
    let totals = Value::object([
        ("swaps", Value::number(totals.swaps)),
        ("warnings", Value::number(totals.warnings)),
        ("not_yet", Value::number(totals.not_yet)),
        ("given_up", Value::number(totals.given_up)),
        ("faulty", Value::number(totals.refused)),
    ]);
    let swaps = found
        .iter()
        .zip(swaps)
        .map(|((name, found), (_, files))| swap(name, found, files, question));
    Value::object([
        ("question", asked(question)),
        ("totals", totals),
        ("outages", outages(&found, question)),
        ("swaps", Value::List(swaps.collect())),
    ])
}

/// How long and when the box of each side can be off.
fn outages(found: &[(String, Found)], question: &Question) -> Value {
    let of = |side: u8| {
        let longest = outages::longest(found, side);
        let (any, blocks) = match &longest {
            None => (true, Value::Null),
            Some((_, _, stand)) => free(stand, question.margin),
        };
        let slots = question.slots.map_or(Value::Null, |length| {
            let slots = outages::slots(found, length, question.margin, side);
            Value::object([("now", slot(slots.now)), ("done", slot(slots.done))])
        });
        let counted = longest
            .as_ref()
            .map(|(_, view, stand)| counts_on(view, stand));
        Value::object([
            ("side", Value::text(party_name(side))),
            ("any", Value::Bool(any)),
            ("blocks", blocks),
            (
                "swap",
                (longest.as_ref()).map_or(Value::Null, |(name, ..)| Value::text(*name)),
            ),
            ("counts_on", counted.unwrap_or(Value::Null)),
            ("unsecured", Value::number(outages::unsecured(found, side))),
            ("slots", slots),
        ])
    };
    Value::List(outages::sides(found).into_iter().map(of).collect())
}

fn slot(slot: Slot) -> Value {
    slot.map_or(Value::Null, |(first, last)| {
        Value::object([
            ("first", Value::number(first)),
            ("last", last.map_or(Value::Null, Value::number)),
        ])
    })
}

fn counts_on(view: &View, stand: &Stand) -> Value {
    let name = |(t, _): (u8, u8)| Value::text(view.names.transaction(t));
    stand.counted.map_or(Value::Null, name)
}

/// The longest outage from now without a warning: whether any, and so many blocks, null where there is no number.
fn free(stand: &Stand, margin: u32) -> (bool, Value) {
    let blocks = stand.slack.checked_sub(margin);
    let blocks = blocks.filter(|_| stand.slack < LONGEST && stand.standing.is_secured());
    (
        stand.slack == LONGEST,
        blocks.map_or(Value::Null, Value::number),
    )
}

/// Where a side stands, and what it can do.
fn payout(view: &View, question: &Question, side: u8) -> Value {
    let stand = view.stand(side);
    let (any, blocks) = free(&stand, question.margin);
    Value::object([
        ("side", Value::text(party_name(side))),
        ("standing", Value::text(stand.standing.word())),
        ("warning", Value::Bool(view.warns(question, side))),
        (
            "slack",
            match stand.standing.is_secured() {
                true => Value::number(stand.slack),
                false => Value::Null,
            },
        ),
        ("counts_on", counts_on(view, &stand)),
        ("any", Value::Bool(any)),
        ("blocks", blocks),
        ("action", action(view, question, side)),
    ])
}

fn asked(question: &Question) -> Value {
    let (unit, length) = match question.length {
        Length::Days(days) => ("day", days),
        Length::Blocks(blocks) => ("block", blocks),
    };
    let (after, from) = match question.start {
        Start::After(blocks) => (Value::number(blocks), Value::Null),
        Start::Height(height) => (Value::Null, Value::number(height)),
    };
    Value::object([
        ("unit", Value::text(unit)),
        ("length", Value::number(length)),
        ("in", after),
        ("from", from),
        ("margin", Value::number(question.margin)),
        (
            "at",
            (question.clock).map_or(Value::Null, |clock| Value::text(iso(clock.at))),
        ),
    ])
}

/// A swap: its name, then what is to be told.
fn swap(name: &str, found: &Found, files: &Files, question: &Question) -> Value {
    let Value::Object(fields) = (match found {
        Found::Sound(view, sides) => sound(view, sides, question),
        Found::Faulty("UNREADABLE", reason) => unreadable(reason),
        Found::Faulty(_, reason) => refused(reason, files),
    }) else {
        panic!("no object")
    };
    let name = ("name".to_string(), Value::text(name));
    Value::Object([vec![name], fields].concat())
}

fn unreadable(reason: &str) -> Value {
    let (file, reason) = reason.split_once(": ").expect("a file and a reason");
    Value::object([
        ("state", Value::text("unreadable")),
        ("file", Value::text(file)),
        ("reason", Value::text(reason)),
    ])
}

/// The reason is "NAME (NUMBER), WORDS".
fn refused(reason: &str, files: &Files) -> Value {
    let [Some(sheet), Some(setup), Some(journal), ..] = files else {
        panic!("a refused swap is read")
    };
    let run = calls::run(sheet, setup, journal);
    let (name, _) = reason.split_once(" (").expect("a name");
    let (_, words) = reason.split_once("), ").expect("words");
    Value::object([
        ("state", Value::text("refused")),
        ("refusal", Value::number(run.refusal)),
        ("refusal_name", Value::text(name)),
        ("reason", Value::text(words)),
        ("steps", Value::number(run.accepted)),
    ])
}

/// A height of the real chain; null is never.
fn height(base: u32, height: u32) -> Value {
    match height {
        NEVER => Value::Null,
        0 => Value::number(0u32),
        _ => Value::number(base + height),
    }
}

fn parties(parties: &[u8]) -> Value {
    let names = parties.iter().map(|&party| Value::text(party_name(party)));
    Value::List(names.collect())
}

/// The parties of a mask.
fn payees(mask: u8) -> Value {
    let parties_of: Vec<u8> = [ALICE, BOB, CAROL]
        .into_iter()
        .filter(|&party| mask & payee_bit(party) != 0)
        .collect();
    parties(&parties_of)
}

fn sound(view: &View, sides: &[u8], question: &Question) -> Value {
    let outcome = view.outcome();
    let outage = view.outage(question);
    let base = view.base().unwrap_or(0);
    let conduct = match outcome.setup.conduct {
        Conduct::Open => "open",
        Conduct::Loose => "loose",
        Conduct::Careful => "careful",
    };
    let blocks = match outage.last < outage.first {
        true => Value::Null,
        false => Value::object([
            ("first", height(base, outage.first)),
            ("last", height(base, outage.last)),
        ]),
    };
    let payouts = sides.iter().map(|&side| payout(view, question, side));
    let all = 0..outcome.sheet.count();
    let transactions = all.map(|t| transaction(view, sides, question, t));
    Value::object([
        ("state", Value::text("sound")),
        ("sides", parties(sides)),
        (
            "blocks_per_day",
            Value::number(outcome.setup.blocks_per_day),
        ),
        ("conduct", Value::text(conduct)),
        ("stealth", Value::Bool(outcome.setup.stealth)),
        ("steps", Value::number(outcome.course.accepted.len())),
        ("mined", Value::number(view.mined())),
        ("base", view.base().map_or(Value::Null, Value::number)),
        ("outage", blocks),
        ("payouts", Value::List(payouts.collect())),
        ("transactions", Value::List(transactions.collect())),
    ])
}

fn transaction(view: &View, sides: &[u8], question: &Question, t: u8) -> Value {
    let after = view.after();
    let (sheet, setup, position) = (after.swap.sheet, after.swap.setup, after.swap.position);
    let (payee, block) = match position.confirmed.get(&t) {
        None => (Value::Null, Value::Null),
        Some(confirmation) => (
            Value::text(destination_name(confirmation.destination)),
            height(after.base, confirmation.block),
        ),
    };
    let lock_height = heights::lock_height(sheet, setup, position, t);
    let settled = after.swap.kind(&view.outage(question), t, ALICE) == Kind::Settled;
    let sides = sides.iter().map(|&side| verdict(view, question, t, side));
    Value::object([
        ("number", Value::number(t)),
        ("name", Value::text(view.names.transaction(t))),
        ("status", status(report::status(sheet, position, t))),
        ("payee", payee),
        ("block", block),
        ("lock_height", height(after.base, lock_height)),
        ("deadline", height(after.base, after.swap.deadline(t))),
        ("pays", payees(after.swap.can_pay(t))),
        (
            "window",
            match settled {
                true => Value::Null,
                false => window(&after, t),
            },
        ),
        ("sides", Value::List(sides.collect())),
    ])
}

fn status(status: u8) -> Value {
    let words = [(1, "pool"), (2, "block"), (4, "confirmed"), (8, "dead")];
    let standing = words.iter().filter(|(bit, _)| status & bit != 0);
    Value::List(standing.map(|(_, word)| Value::text(*word)).collect())
}

fn window(after: &After, t: u8) -> Value {
    let swap = &after.swap;
    let (from, to) = (swap.soonest_block(t), swap.soonest_deadline(t));
    let left = match to {
        NEVER => Value::Null,
        _ => Value::number(to.saturating_sub(swap.position.mined)),
    };
    let rival = swap.later_rival(t).filter(|_| to != NEVER);
    let otherwise = rival.map_or(Value::Null, |rival| {
        Value::object([
            ("number", Value::number(rival)),
            ("name", Value::text(after.names.transaction(rival))),
            ("pays", payees(swap.can_pay(rival))),
            ("from", height(after.base, to + 1)),
        ])
    });
    let parent = swap.sheet.transaction(t).parent;
    let parent = parent.filter(|_| to != swap.deadline(t));
    let hangs_on = parent.map_or(Value::Null, |parent| {
        Value::object([
            ("number", Value::number(parent)),
            ("name", Value::text(after.names.transaction(parent))),
            ("block", height(after.base, swap.soonest_block(parent))),
        ])
    });
    Value::object([
        ("from", height(after.base, from)),
        ("to", height(after.base, to)),
        ("left", left),
        ("else", otherwise),
        ("if", hangs_on),
    ])
}

/// What the outage does to a transaction for a side.
fn verdict(view: &View, question: &Question, t: u8, side: u8) -> Value {
    let kind = match view.swap().kind(&view.outage(question), t, side) {
        Kind::Covered => "covered",
        Kind::Ahead => "ahead",
        Kind::Taken => "taken",
        Kind::Sent => "sent",
        Kind::Free => "free",
        Kind::Others => "others",
        Kind::Settled => "settled",
    };
    let rivals = view.swap().in_the_way(view.open(), t, side);
    let rivals = rivals.into_iter().map(|(rival, sent)| {
        Value::object([
            ("number", Value::number(rival)),
            ("name", Value::text(view.names.transaction(rival))),
            ("sent", Value::Bool(sent)),
        ])
    });
    Value::object([
        ("side", Value::text(party_name(side))),
        ("outage", Value::text(kind)),
        ("can_send", Value::Bool(view.can_send(t, side))),
        ("rivals", Value::List(rivals.collect())),
    ])
}

/// The estimated time of the last block that is safe.
fn times(view: &View, question: &Question, by: Option<u32>) -> Value {
    let (Some(clock), Some(by)) = (question.clock, by) else {
        return Value::Null;
    };
    let blocks = u64::from(by - view.mined());
    Value::object([
        ("about", Value::text(iso(clock.mean(blocks)))),
        ("early", Value::text(iso(clock.within(blocks, 5)))),
        ("late", Value::text(iso(clock.within(blocks, 95)))),
    ])
}

/// What the side can do about its payout.
fn action(view: &View, question: &Question, side: u8) -> Value {
    let base = view.base().unwrap_or(0);
    let block = |block: Option<u32>| height(base, block.unwrap_or(NEVER));
    let then = view.stand(side).help.map(|(_, then)| then);
    let name = |t: u8| Value::text(view.names.transaction(t));
    let (word, reason) = match view.action(question.margin, side) {
        Action::Do {
            step,
            open,
            once,
            after,
            by,
        } => {
            return Value::object([
                ("word", Value::text("do")),
                ("step", Value::text(step)),
                ("once", once.map_or(Value::Null, name)),
                ("after", block(after)),
                ("by", block(by)),
                ("now", Value::Bool(open && by == Some(view.mined() + 1))),
                ("time", times(view, question, by)),
                ("then", then.map_or(Value::Null, Value::number)),
                ("reason", Value::Null),
            ])
        }
        Action::Done(reason) => ("nothing to do", Value::text(reason)),
        Action::Nothing(reason) => ("nothing can be done now", Value::text(reason)),
        Action::NoPayout(standing) => (standing, Value::Null),
    };
    Value::object([
        ("word", Value::text(word)),
        ("step", Value::Null),
        ("once", Value::Null),
        ("after", Value::Null),
        ("by", Value::Null),
        ("now", Value::Bool(false)),
        ("time", Value::Null),
        ("then", Value::Null),
        ("reason", reason),
    ])
}

/// The page's words for a transaction of a sound swap that is not settled, a text for each side.
pub fn words(files: &Files, question: &Question, t: u8) -> Vec<String> {
    let Found::Sound(view, sides) = found(files, question) else {
        panic!("no sound swap")
    };
    sides
        .iter()
        .map(|&side| side_words(&view, question, t, side))
        .collect()
}

/// What can happen to a transaction, for a side.
fn outlook(view: &View, question: &Question, t: u8, side: u8) -> String {
    let after = view.after();
    let kind = after.swap.kind(&view.outage(question), t, side);
    let words = match kind {
        Kind::Covered | Kind::Ahead => after.otherwise_if_any(t).unwrap_or_default(),
        Kind::Taken => {
            let payee = after.swap.taken(t, side).expect("a payee");
            format!("sent, pays {}", party_name(payee))
        }
        Kind::Sent => "sent".to_string(),
        Kind::Free => "no deadline ahead".to_string(),
        Kind::Others if after.swap.sheet.parties.len() == 2 => "the other side's".to_string(),
        Kind::Others => "another side's".to_string(),
        Kind::Settled => panic!("transaction {t} is settled"),
    };
    match kind {
        Kind::Others => words,
        _ => words + &after.in_the_way(t, side),
    }
}

fn side_words(view: &View, question: &Question, t: u8, side: u8) -> String {
    let counted = view.stand(side).counted.is_some_and(|(of, _)| of == t);
    let mark = match counted && view.warns(question, side) {
        true => "WARNING, ",
        false => "",
    };
    let words = match counted {
        true => format!("counted on, {}", view.payout(question, side)),
        false => outlook(view, question, t, side),
    };
    let now = match view.can_send(t, side) {
        true => "; can be sent now",
        false => "",
    };
    format!("{}: {mark}{words}{now}", party_name(side))
}
