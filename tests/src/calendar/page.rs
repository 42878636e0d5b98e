//! What a page of the calendar must show, read off its elements.

use super::data;
use super::{text, Length, Question, Start};
use crate::json::Value;
use crate::markup::Element;
use crate::samples::Files;
use std::collections::BTreeSet;

/// A page that needs nothing else: no script, no reference but to an element of its own, no identifier twice.
pub fn check_self_contained(page: &Element) {
    let all = page.all();
    let ids: Vec<&str> = all.iter().map(|e| e.get("id")).collect();
    let ids: Vec<&str> = ids.into_iter().filter(|id| !id.is_empty()).collect();
    let known: BTreeSet<&str> = ids.iter().copied().collect();
    assert_eq!(known.len(), ids.len(), "an identifier twice");
    for element in all {
        let foreign = ["script", "link", "img", "iframe", "object", "embed", "base"];
        assert!(!foreign.contains(&element.name.as_str()), "{element:?}");
        for (name, value) in &element.attributes {
            assert!(!name.starts_with("on") && name != "src" && name != "style");
            let target = value.strip_prefix('#').map(|id| known.contains(id));
            assert!(name != "href" || target == Some(true), "{name}={value}");
        }
    }
    assert_eq!(with_class(page, "p", "written").len(), 1);
    let style = page.named("style")[0].text();
    for part in [
        "prefers-color-scheme: dark",
        "max-width: 800px",
        "@media print",
    ] {
        assert!(style.contains(part), "{part}");
    }
    assert!(!style.contains("@import") && !style.contains("http"));
    let targets = style.split("url(").skip(1);
    let targets: Vec<&str> = targets
        .map(|rest| &rest[..rest.find(')').unwrap()])
        .collect();
    assert!(targets.len() >= 3);
    for target in targets {
        let id = target.strip_prefix('#');
        assert!(id.is_some_and(|id| known.contains(id)), "{target}");
    }
}

fn collapsed(text: &str) -> String {
    text.split_whitespace().collect::<Vec<_>>().join(" ")
}

fn cells(row: &Element) -> Vec<String> {
    row.elements().map(Element::text).collect()
}

fn with_class<'a>(page: &'a Element, name: &str, class: &str) -> Vec<&'a Element> {
    let mut found = page.named(name);
    found.retain(|element| element.get("class") == class);
    found
}

/// The overview has the lines of the first screen, in their order.
pub fn check_overview(
    page: &Element,
    swaps: &[(String, Files)],
    json: &Value,
    question: &Question,
) {
    let plain = Question {
        full: false,
        ..*question
    };
    let (screen, _) = text(swaps, &plain);
    let lines: Vec<String> = screen.lines().map(collapsed).collect();
    let (totals, lines) = lines.split_last().expect("totals");
    let said = with_class(page, "p", "outages");
    let (lines, outages) = lines.split_at(lines.len() - said.len());
    let said: Vec<String> = said.iter().map(|p| collapsed(&p.text())).collect();
    assert_eq!(said, outages);
    let asked = with_class(page, "p", "question")[0].text();
    assert!(asked.starts_with(&lines[0]), "{asked}");
    assert_eq!(with_class(page, "p", "totals")[0].text(), *totals);
    let tables = page.named("table");
    assert_eq!(tables[0].get("id"), "overview");
    let rows = tables[0].named("tbody")[0].named("tr");
    let shown: Vec<String> = rows.iter().map(|row| overview_row(row, json)).collect();
    check_overview_axis(tables[0], json);
    assert_eq!(shown.len(), lines.len() - 2);
    for (shown, line) in shown.iter().zip(&lines[2..]) {
        assert_eq!(shown, line);
    }
    let span = with_class(tables[0], "svg", "axis")[0].get("data-span");
    let span: u64 = span.parse().expect("a number");
    for row in rows {
        check_overview_lane(row, json, question, span);
    }
}

/// A row of the overview that has a lane: the bars of its transaction, for its side.
fn check_overview_lane(row: &Element, json: &Value, question: &Question, span: u64) {
    let cells = cells(row);
    let warns = cells[0].starts_with("WARNING");
    assert_eq!(row.get("class") == "warning", warns);
    let swap = swap_of(row, json);
    assert_eq!(swap.is_none(), row.get("class") == "faulty");
    if let Some(swap) = swap {
        let transactions = swap.get("transactions").list();
        let shown = transactions
            .iter()
            .find(|t| t.get("name").as_text() == cells[3]);
        let window = shown.map_or(&Value::Null, |transaction| transaction.get("window"));
        check_lane(row, swap, window, warns, question, span);
    }
}

/// Where a swap stands: whether by its base, and the height.
fn stands(swap: &Value) -> (bool, u64) {
    let mined = swap.get("mined").as_number().expect("a number");
    (*swap.get("base") != Value::Null, base(swap) + mined)
}

/// The height at which all sound swaps stand, if it is one.
fn same_height(json: &Value) -> Option<u64> {
    let swaps = json.get("swaps").list().iter();
    let sound = swaps.filter(|swap| swap.get("state").as_text() == "sound");
    let heights: BTreeSet<(bool, u64)> = sound.map(stands).collect();
    let first = heights.first().map(|&(_, height)| height);
    first.filter(|_| heights.len() == 1)
}

/// The axis has heights, as the columns have, where all swaps stand at the same one; else both count from now.
fn check_overview_axis(table: &Element, json: &Value) {
    let axis = with_class(table, "svg", "axis")[0];
    let now = match same_height(json) {
        None => "now".to_string(),
        Some(height) => format!("now {height}"),
    };
    assert_eq!(axis.named("text")[0].text(), now);
    for label in with_class(axis, "text", "label") {
        let from_now = label.text().starts_with('+');
        assert_eq!(from_now, same_height(json).is_none());
    }
}

/// A block of a row, as the screen has it; from now where the swaps stand at several heights.
fn overview_block(cell: &str, json: &Value, swap: &Value) -> String {
    let (_, now) = stands(swap);
    if cell == "-" {
        return cell.to_string();
    }
    let block = match (cell.strip_prefix('+'), cell.strip_prefix('-')) {
        (Some(ahead), _) => now + ahead.parse::<u64>().expect("a number"),
        (_, Some(behind)) => now - behind.parse::<u64>().expect("a number"),
        _ => {
            assert!(cell == "never" || same_height(json).is_some());
            return cell.to_string();
        }
    };
    assert_eq!(same_height(json), None);
    block.to_string()
}

/// The swap to whose section a row leads.
fn swap_of<'a>(row: &Element, json: &'a Value) -> Option<&'a Value> {
    let links = row.named("a");
    let number = links.first()?.get("href").strip_prefix("#swap-");
    let number: usize = number.expect("a swap").parse().expect("a number");
    Some(&json.get("swaps").list()[number - 1])
}

/// A row as the screen has it.
fn overview_row(row: &Element, json: &Value) -> String {
    let mut cells = cells(row);
    if let (Some(swap), 10) = (swap_of(row, json), cells.len()) {
        for place in [4, 5] {
            cells[place] = overview_block(&cells[place], json, swap);
        }
    }
    collapsed(&cells.join(" "))
}

/// A section for each sound swap with a side that is shown, with the numbers that its JSON has and the model's words.
pub fn check_sections(
    page: &Element,
    swaps: &[(String, Files)],
    json: &Value,
    question: &Question,
) {
    let sections = page.named("section");
    let mut checked = 0;
    for (place, (swap, (_, files))) in json.get("swaps").list().iter().zip(swaps).enumerate() {
        let id = format!("swap-{}", place + 1);
        let found: Vec<&&Element> = sections.iter().filter(|s| s.get("id") == id).collect();
        let sound = swap.get("state").as_text() == "sound";
        let shown = sound && !swap.get("sides").list().is_empty();
        assert_eq!(found.len(), usize::from(shown), "{id}");
        for section in found {
            check_folded(section, swap, swaps.len() == 1);
            check_section(section, swap, files, question);
            checked += 1;
        }
    }
    assert_eq!(checked, sections.len());
}

/// A section is open where one side has a warning, or where it is the only one; else it is folded and not printed.
fn check_folded(section: &Element, swap: &Value, alone: bool) {
    let mut payouts = swap.get("payouts").list().iter();
    let open = payouts.any(is_warned) || alone;
    assert_eq!(section.get("class"), if open { "open" } else { "calm" });
    let details = section.named("details")[0];
    assert_eq!(details.attributes.contains_key("open"), open);
    assert_eq!(section.named("summary").len(), 1);
}

fn is_warned(payout: &Value) -> bool {
    *payout.get("warning") == Value::Bool(true)
}

/// Whether a side that is warned counts on the transaction.
fn is_warned_of(swap: &Value, transaction: &Value) -> bool {
    let mut warned = swap.get("payouts").list().iter().filter(|p| is_warned(p));
    warned.any(|payout| payout.get("counts_on") == transaction.get("name"))
}

fn is_settled(transaction: &Value) -> bool {
    *transaction.get("window") == Value::Null
}

fn check_section(section: &Element, swap: &Value, files: &Files, question: &Question) {
    let name = swap.get("name").as_text().replace(char::is_control, "?");
    assert_eq!(section.named("bdi")[0].text(), name);
    assert_eq!(with_class(section, "p", "facts")[0].text(), facts(swap));
    let transactions = swap.get("transactions").list();
    let settled = transactions.iter().filter(|t| is_settled(t));
    let settled: Vec<String> = settled.map(settled_words).collect();
    let shown: Vec<String> = section.named("li").iter().map(|li| li.text()).collect();
    assert_eq!(shown, settled);
    let open: Vec<&Value> = transactions.iter().filter(|t| !is_settled(t)).collect();
    let bodies = section.named("tbody");
    assert_eq!(bodies.len(), usize::from(!open.is_empty()));
    for body in bodies {
        let rows = body.named("tr");
        assert_eq!(rows.len(), open.len());
        let axis = check_axis(section, swap);
        for (row, transaction) in rows.iter().zip(&open) {
            let warning = is_warned_of(swap, transaction);
            check_row(row, transaction, warning, files, question);
            check_lane(
                row,
                swap,
                transaction.get("window"),
                warning,
                question,
                axis,
            );
        }
    }
}

/// A height in words.
fn height(value: &Value) -> String {
    let number = value.as_number();
    number.map_or("never".to_string(), |number| number.to_string())
}

/// The base of a swap; 0 where it has none.
fn base(swap: &Value) -> u64 {
    swap.get("base").as_number().unwrap_or(0)
}

fn facts(swap: &Value) -> String {
    let outage = match swap.get("outage") {
        Value::Null => "no outage".to_string(),
        outage => {
            let [first, last] = ["first", "last"].map(|name| height(outage.get(name)));
            format!("outage in blocks {first} to {last}")
        }
    };
    let [blocks, steps, mined] =
        ["blocks_per_day", "steps", "mined"].map(|name| height(swap.get(name)));
    let conduct = swap.get("conduct").as_text();
    let stealth = u8::from(*swap.get("stealth") == Value::Bool(true));
    let chain = match (swap.get("base"), swap.get("mined").as_number()) {
        (Value::Null, _) => String::new(),
        (_, mined) => format!("height {}; ", base(swap) + mined.expect("a number")),
    };
    format!(
        "conduct {conduct}; stealth {stealth}; blocks per day {blocks}; steps accepted {steps}; \
         blocks mined {mined}; {chain}{outage}"
    )
}

fn settled_words(transaction: &Value) -> String {
    let name = transaction.get("name").as_text();
    match transaction.get("payee") {
        Value::Null => format!("{name}: dead"),
        payee => {
            let block = height(transaction.get("block"));
            format!("{name}: block {block}, to {}", payee.as_text())
        }
    }
}

fn names(list: &Value) -> Vec<&str> {
    list.list().iter().map(Value::as_text).collect()
}

fn is(transaction: &Value, kind: &str) -> impl Iterator<Item = bool> {
    let sides = transaction.get("sides").list();
    let is: Vec<bool> = sides
        .iter()
        .map(|side| side.get("outage").as_text() == kind)
        .collect();
    is.into_iter()
}

/// The word for payees; two of a sheet of three go by their first letters.
fn pays(names: &[&str], files: &Files) -> String {
    let three = files[0].as_ref().is_some_and(|sheet| sheet[0] >= 128);
    match names {
        [] => "nobody".to_string(),
        [one] => one.to_string(),
        [a, b] if three => format!("{} or {}", &a[..1], &b[..1]),
        [_, _] => "either".to_string(),
        _ => "anyone".to_string(),
    }
}

fn check_row(
    row: &Element,
    transaction: &Value,
    warning: bool,
    files: &Files,
    question: &Question,
) {
    let window = transaction.get("window");
    let pays = pays(&names(transaction.get("pays")), files);
    let status = match names(transaction.get("status"))[..] {
        [] => "-".to_string(),
        ref words => words.join("+"),
    };
    let left = match window.get("left") {
        Value::Null => "-".to_string(),
        left => height(left),
    };
    let mut expected = vec![transaction.get("name").as_text().to_string()];
    expected.extend([pays, status]);
    expected.extend(["lock_height", "deadline"].map(|name| height(transaction.get(name))));
    expected.extend(["from", "to"].map(|name| height(window.get(name))));
    expected.extend([left, String::new()]);
    let cells = cells(row);
    assert_eq!(cells[..9], expected);
    let number = transaction.get("number").as_number().expect("a number") as u8;
    let words: Vec<String> = row.named("div").iter().map(|div| div.text()).collect();
    assert_eq!(words, data::words(files, question, number));
    let class = if warning {
        "warning"
    } else if is(transaction, "others").all(|is| is) {
        "others"
    } else {
        "calm"
    };
    assert_eq!(row.get("class"), class);
}

/// The blocks that the lanes show and a share of them; each label stands at its block.
fn check_axis(section: &Element, swap: &Value) -> u64 {
    let axis = with_class(section, "svg", "axis")[0];
    let span: u64 = axis.get("data-span").parse().expect("a number");
    let now = swap.get("mined").as_number().expect("a number") + base(swap);
    assert_eq!(axis.named("text")[0].text(), format!("now {now}"));
    for label in with_class(axis, "text", "label") {
        let block: u64 = label.text().parse().expect("a block");
        assert_eq!(label.get("x"), share(block - now, span));
    }
    span
}

/// A share in percent, cut after three digits.
fn share(blocks: u64, span: u64) -> String {
    let share = blocks.min(span) * 100_000 / span;
    format!("{}.{:03}%", share / 1000, share % 1000)
}

fn shown_bar(bar: &Element) -> [String; 5] {
    ["class", "data-from", "data-to", "x", "width"].map(|name| bar.get(name).to_string())
}

/// The bars of a lane: the outage and its margin, then those of a window.
fn bars(
    swap: &Value,
    window: &Value,
    warning: bool,
    question: &Question,
    span: u64,
) -> Vec<[String; 5]> {
    let mined = swap.get("mined").as_number().expect("a number");
    let days = swap.get("blocks_per_day").as_number().expect("a number");
    let length = match question.length {
        Length::Days(count) => u64::from(count) * days,
        Length::Blocks(blocks) => blocks.into(),
    };
    let base = base(swap);
    let first = match question.start {
        Start::After(blocks) => mined + 1 + u64::from(blocks),
        Start::Height(from) => u64::from(from) - base,
    };
    let last = first + length - 1;
    let end = last + u64::from(question.margin);
    let mut bars = vec![
        ("outage", first, Some(last)),
        ("margin", last + 1, Some(end)),
    ];
    if *window != Value::Null {
        let own = |name: &str| window.get(name).as_number().map(|height| height - base);
        let from = own("from").expect("a first block");
        let to = own("to").filter(|&to| !warning || to > mined);
        bars.push(("window", from, to));
        let before = to.is_some_and(|to| to < first);
        let start = if before { from } else { from.max(first) };
        bars.extend(warning.then_some(("covered", start, to.or(Some(end.max(mined))))));
    }
    let bars = bars.into_iter();
    bars.filter_map(|bar| drawn(bar, mined, span)).collect()
}

/// A lane shows these bars, and says in words whether the outage covers them.
fn check_lane(
    row: &Element,
    swap: &Value,
    window: &Value,
    warning: bool,
    question: &Question,
    span: u64,
) {
    let lane = row.named("svg")[0];
    let shown: Vec<[String; 5]> = lane.named("rect").into_iter().map(shown_bar).collect();
    assert_eq!(shown, bars(swap, window, warning, question, span));
    let heights = || ["from", "to"].map(|name| height(window.get(name)));
    let words = match window {
        Value::Null => "no window".to_string(),
        _ => format!("blocks {}", heights().join(" to ")),
    };
    let covered = if warning {
        ", covered by the outage"
    } else {
        ""
    };
    assert_eq!(lane.get("aria-label"), words + covered);
}

/// A bar as far as the lane shows it.
fn drawn(
    (name, first, last): (&str, u64, Option<u64>),
    mined: u64,
    span: u64,
) -> Option<[String; 5]> {
    let from = first.max(mined + 1) - mined - 1;
    let to = last.map_or(u64::MAX, |last| last.saturating_sub(mined));
    if from >= to || from >= span {
        return None;
    }
    let width = match to > span {
        true => "200%".to_string(),
        false => share(to - from, span),
    };
    let words = last.map_or("never".to_string(), |last| last.to_string());
    Some([
        name.to_string(),
        first.to_string(),
        words,
        share(from, span),
        width,
    ])
}
