//! The calendar's iCalendar file: a reader by RFC 5545's rules on lines, and the events by the model.

use super::action::Action;
use super::clock::utc;
use super::outages;
use super::words::party_name;
use super::{found_all, Found, Question};
use crate::samples::Files;

/// The properties of an event, in their order.
pub type Event = Vec<(String, String)>;

/// The lines: each ends with CR LF and has 75 octets at most; "a long line can be split .. by inserting a CRLF immediately
/// followed by a single linear white-space character".
fn unfolded(text: &str) -> Vec<String> {
    let text = text.strip_suffix("\r\n").expect("a line end");
    let mut lines: Vec<String> = Vec::new();
    for line in text.split("\r\n") {
        assert!(
            !line.contains(['\r', '\n']) && !line.is_empty() && line.len() <= 75,
            "{line}"
        );
        match line.strip_prefix(' ') {
            Some(more) => *lines.last_mut().expect("a line before") += more,
            None => lines.push(line.to_string()),
        }
    }
    lines
}

/// A value of type TEXT: "ESCAPED-CHAR = ("\\" / "\;" / "\," / "\N" / "\n")".
fn unescaped(value: &str) -> String {
    let mut text = String::new();
    let mut characters = value.chars();
    while let Some(character) = characters.next() {
        assert!(
            ![';', ','].contains(&character) && !character.is_control(),
            "{value}"
        );
        text.push(match character {
            '\\' => match characters.next().expect("an escaped character") {
                escaped @ ('\\' | ';' | ',') => escaped,
                'n' | 'N' => '\n',
                other => panic!("\\{other}"),
            },
            plain => plain,
        });
    }
    text
}

/// The events of a file: one calendar, which has "VERSION" and "PRODID", events alone in it, each with a "UID" of its own,
/// a "DTSTAMP" and a "DTSTART".
pub fn read(text: &str) -> Vec<Event> {
    let lines = unfolded(text);
    let head = ["BEGIN:VCALENDAR", "VERSION:2.0"];
    assert_eq!(lines[..2], head);
    assert!(lines[2].starts_with("PRODID:"));
    assert_eq!(lines.last().map(String::as_str), Some("END:VCALENDAR"));
    let mut events: Vec<Event> = Vec::new();
    let mut open = false;
    for line in &lines[3..lines.len() - 1] {
        let (name, value) = line.split_once(':').expect("a property");
        match (name, value) {
            ("BEGIN", "VEVENT") if !open => events.push(Event::new()),
            ("END", "VEVENT") if open => {}
            _ => {
                assert!(open, "{line}");
                let event = events.last_mut().expect("an event");
                event.push((name.to_string(), unescaped(value)));
            }
        }
        open = line != "END:VEVENT";
    }
    assert!(!open && !events.is_empty());
    for event in &events {
        for needed in ["UID", "DTSTAMP", "DTSTART", "SUMMARY"] {
            assert_eq!(event.iter().filter(|(name, _)| name == needed).count(), 1);
        }
    }
    events
}

fn event(at: i64, uid: String, start: i64, end: Option<i64>, words: [Option<String>; 2]) -> Event {
    let [summary, description] = words;
    let parts = [
        ("DTSTAMP", Some(utc(at))),
        ("UID", Some(format!("{uid}@swap-calendar"))),
        ("DTSTART", Some(utc(start))),
        ("DTEND", end.map(utc)),
        ("SUMMARY", summary),
        ("DESCRIPTION", description),
    ];
    let parts = parts.into_iter();
    parts
        .filter_map(|(name, value)| Some((name.to_string(), value?)))
        .collect()
}

/// What each side of a swap is to do, from the early to the late time of its last block.
fn ends(name: &str, found: &Found, question: &Question) -> Vec<Event> {
    let Found::Sound(view, sides) = found else {
        return Vec::new();
    };
    let clock = question.clock.expect("a clock");
    let mut events = Vec::new();
    for &side in sides {
        let stand = view.stand(side);
        let Some(by) = view.by(question.margin, &stand) else {
            continue;
        };
        if let Action::Done(_) = view.action(question.margin, side) {
            continue;
        }
        let blocks = u64::from(by - view.mined());
        let hex: String = name.bytes().map(|byte| format!("{byte:02x}")).collect();
        let side_name = party_name(side);
        let counted = stand.counted.map(|(t, _)| t);
        let counting = counted.map_or(String::new(), |t| {
            format!(", counting on {}", view.names.transaction(t))
        });
        let by_block = view.height(by);
        let summary = format!("{name}, {side_name}: act by block {by_block}{counting}");
        let description = view.payout(question, side)
            + "; an estimate: from the time of 5 to that of 95 in 100 cases";
        events.push(event(
            clock.at,
            format!("payout-{side_name}-{}-{hex}", counted.unwrap_or(255)),
            clock.within(blocks, 5),
            Some(clock.within(blocks, 95)),
            [Some(summary), Some(description)],
        ));
    }
    events
}

/// Each stretch of a side, from its late beginning to its early end; none that is over before.
fn slots(found: &[(String, Found)], question: &Question, side: u8) -> Vec<Event> {
    let (Some(clock), Some(length)) = (question.clock, question.slots) else {
        return Vec::new();
    };
    let slots = outages::slots(found, length, question.margin, side);
    let mut events = Vec::new();
    for (uid, slot, with) in [
        ("now", slots.now, ""),
        (
            "done",
            slots.done.filter(|_| slots.done != slots.now),
            ", with what helps now done",
        ),
    ] {
        let Some((first, last)) = slot else {
            continue;
        };
        let start = clock.within(u64::from(first) - 1, 95);
        let end = last.map(|last| clock.within(last.into(), 5));
        if end.is_some_and(|end| end <= start) {
            continue;
        }
        let (name, words) = (party_name(side), length.words());
        let on = if last.is_none() { " from here on" } else { "" };
        let summary = format!("{name}: an outage of {words} has no warning{on}{with}");
        let uid = format!("slot-{name}-{uid}");
        events.push(event(clock.at, uid, start, end, [Some(summary), None]));
    }
    events
}

/// The events by the model.
pub fn events(swaps: &[(String, Files)], question: &Question) -> Vec<Event> {
    let found = found_all(swaps, question);
    let mut events: Vec<Event> = found
        .iter()
        .flat_map(|(name, found)| ends(name, found, question))
        .collect();
    for side in outages::sides(&found) {
        events.extend(slots(&found, question, side));
    }
    if events.is_empty() {
        let at = question.clock.expect("a clock").at;
        let summary = Some("nothing to do".to_string());
        events.push(event(at, "none".to_string(), at, None, [summary, None]));
    }
    events
}
