//! Writes a crate that holds the definitions of all fourteen calls to the model's answers: for each of COUNT random cases one fact for
//! each call, proved by computation. `tests/definitions` runs it and has the crate proved.
//!
//! Usage: definitions COUNT SEED MOST CRATES FOLDER, with sheets of at most MOST transactions

use std::fmt::Write;
use std::fs;
use std::io;
use std::path::Path;

use swap_tests::calls::{Call, Inputs};
use swap_tests::model::heights::NEVER;
use swap_tests::model::sheet::Head;
use swap_tests::random::{self, Case, Random};
use swap_tests::requests::{by_model, Request};
use swap_tests::slack::row::{self as slack, Row, LONGEST};

/// Steps to a journal, at most.
const STEPS: usize = 24;
/// Steps to a journal that is shrunk, which runs it again and again.
const SHRUNK: usize = 8;
/// What every buffer holds before a call.
const FILL: u8 = 170;
/// The crates whose definitions the calls answer by, above those of `position`, which has an opener of its own.
const CRATES: [&str; 15] = [
    "laws",
    "dated",
    "call_page",
    "soonest",
    "call_outage",
    "attainable",
    "slack",
    "call_slack",
    "call_timelocks",
    "call_desk",
    "call_blocks",
    "endings",
    "call_earliest",
    "call_ask",
    "call_shrink",
];
/// Where each call's answer is defined, and the definition's name; of slack its parts too.
const ANSWERS: [(&str, &str); 16] = [
    ("position.specs.Play", "run"),
    ("position.specs.Answers", "list_answer"),
    ("sheet.specs.Check", "sheet_refusal"),
    ("dated.specs.Report", "report_answer"),
    ("call_page.specs.Page", "page_answer"),
    ("call_outage.specs.Answer", "outage_answer"),
    ("call_slack.specs.Answer", "slack_answer"),
    (
        "call_slack.specs.Row",
        "counted_at, destination_for, is_due",
    ),
    ("slack.specs.Slack", "lasts"),
    ("call_timelocks.specs.Timelocks", "timelocks_answer"),
    ("call_desk.specs.Desk", "desk_answer"),
    ("call_blocks.specs.BlockList", "blocks_refusal"),
    ("call_earliest.specs.Answer", "earliest_answer"),
    ("call_ask.specs.Ask", "ask_answer"),
    ("call_ask.specs.Commit", "commit_answer"),
    ("call_shrink.specs.Shrink", "shrink_answer"),
];
/// What every file of cases uses beside the answers.
const HEAD: &str = "-- Cases and the model's answers.
use Rattle.std.specs.Prelude.{ℕ, ◌≡◌, refl, true, not, ◌&&◌, List, [], ◌∷◌, eqb}
use Rattle.laws.specs.Same.{same}
use Rattle.position.specs.Answers.{packed}
use Rattle.definitions.specs.Opened.{opened}
";

/// The bytes as a list of antt.
fn list(bytes: &[u8]) -> String {
    bytes
        .iter()
        .fold(String::new(), |text, byte| text + &format!("{byte} ∷ "))
        + "[]"
}

/// The bytes of a case under a name.
fn named(name: &str, number: usize, bytes: &[u8]) -> String {
    format!(
        "abbrev {name}{number} : List ℕ\n{name}{number} = {}\n\n",
        list(bytes)
    )
}

/// One name that opens every definition that the calls answer by, found in the files of `specs/`.
fn opener(crates: &Path) -> io::Result<String> {
    let mut uses = "use Rattle.position.proofs.Opened as position\n".to_string();
    let mut names = "position.opened".to_string();
    for name in CRATES {
        let mut files: Vec<_> = fs::read_dir(crates.join(name).join("specs"))?
            .filter_map(|entry| Some(entry.ok()?.path()))
            .filter(|path| path.extension().is_some_and(|end| end == "antt"))
            .collect();
        files.sort();
        for file in files {
            let text = fs::read_to_string(&file)?;
            let stem = file.file_stem().expect("a name").to_string_lossy();
            let found = text
                .lines()
                .filter_map(|line| line.strip_prefix("unfoldable pub "));
            let found: Vec<&str> = found.filter_map(|line| line.split(' ').next()).collect();
            if !found.is_empty() {
                let alias = format!("{name}{stem}");
                writeln!(uses, "use Rattle.{name}.specs.{stem} as {alias}").unwrap();
                found
                    .iter()
                    .for_each(|word| write!(names, " {alias}.{word}").unwrap());
            }
        }
    }
    Ok(format!(
        "-- One name that opens every definition of the calls.\n{uses}\nunfoldable pub opened : Unit {{0}}\n\
         unfolding {names}\nopened = tt\n"
    ))
}

/// The call's answer by the definitions, of this case's sheet, setup and journal and the buffer `out`.
fn answer(request: &Request, number: usize) -> String {
    let (s, u) = (format!("s{number}"), format!("u{number}"));
    let (j, out) = (format!("j{number}"), "out");
    match request {
        Request::Four(Call::Check) => format!("sheet_refusal {s}"),
        Request::Four(Call::Run) => format!("run {s} {u} {j}"),
        Request::Four(Call::List) => format!("list_answer {s} {u} {j} {out}"),
        Request::Four(Call::Report) => format!("report_answer {s} {u} {j} {out}"),
        Request::Page => format!("page_answer {s} {u} {j} {out}"),
        Request::Outage { blocks } => format!("outage_answer {s} {u} {j} {blocks} {out}"),
        Request::Slack => format!("slack_answer {s} {u} {j} {out}"),
        Request::Timelocks { base } => format!("timelocks_answer {s} {u} {base} {out}"),
        Request::Desk { bundle } => format!("desk_answer {s} ({}) {out}", list(bundle)),
        Request::Blocks { list: entries } => format!("blocks_refusal {s} {u} ({})", list(entries)),
        Request::Earliest { mask, dests } => {
            format!("earliest_answer {s} {u} {mask} ({}) {out}", list(dests))
        }
        Request::Ask { step } => format!("ask_answer {s} {u} {j} ({})", list(step)),
        Request::Commit { step, count, size } => {
            format!(
                "commit_answer {s} {u} ({}) {count} {out} {size}",
                list(step)
            )
        }
        Request::Shrink => format!("shrink_answer {s} {u} k{number} {out}"),
    }
}

/// The rows of slack, by what makes them: the greatest number that lasts is found by asking for all of them, so here it is asked
/// for and for one more.
fn rows(number: usize, bytes: &[u8]) -> String {
    let parts = bytes.chunks_exact(slack::ROW).zip(["0", "1", "3"]);
    let facts = parts.map(|(bytes, x)| {
        let row = Row::read(bytes);
        let (s, u) = (format!("s{number}"), format!("u{number}"));
        let lasts = match row.blocks {
            NEVER => format!("not (lasts {s} {u} p {x} 0)"),
            LONGEST => format!("lasts {s} {u} p {x} {LONGEST}"),
            k => format!("(lasts {s} {u} p {x} {k} && not (lasts {s} {u} p {x} {}))", k + 1),
        };
        let (blocks, t, d) = (row.blocks, bytes[4], bytes[5]);
        let due = format!("is_due {s} {u} p {x} {blocks} {t}");
        let due = if row.due { due } else { format!("not ({due})") };
        format!(
            "({lasts} && (eqb (counted_at {s} {u} p {x} {blocks}) {t} && (eqb (destination_for {s} {x} {t}) {d} && {due})))"
        )
    });
    let facts: Vec<String> = facts.collect();
    let run = format!("(run s{number} u{number} j{number}).position");
    format!("(let p = {run} in {})", facts.join(" && "))
}

/// The fact about one call of a case: the number that C gets, and the buffer afterwards where there is one.
fn fact(request: &Request, case: &Case, number: usize, room: usize) -> (String, u32) {
    let before = request.buffer(case, vec![FILL; room]);
    let mut after = before.clone();
    let answered = by_model(request, &Inputs::of(case), &mut after);
    let value = answer(request, number);
    let (count, buffer) = match request {
        Request::Four(Call::Run) => ("a.accepted", false),
        Request::Ask { .. } => ("a.count", false),
        Request::Timelocks { .. } => ("0", true),
        _ => ("a.count", true),
    };
    let claim = match request {
        Request::Four(Call::Check) | Request::Blocks { .. } => {
            format!("eqb (packed ({value}) 0) {answered}")
        }
        Request::Slack if answered == 0 => {
            let parties = Head::of(&case.0).parties.len();
            rows(number, &after[..slack::ROW * parties])
        }
        _ if buffer => format!(
            "(let out = {} in let a = {value} in eqb (packed a.refusal {count}) {answered} && same a.buffer ({}))",
            list(&before),
            list(&after)
        ),
        _ => format!("(let a = {value} in eqb (packed a.refusal {count}) {answered})"),
    };
    let name = format!("{}{number}", request.name());
    let text = format!("{name} : {claim} ≡ true\nunfolding opened packed same\n{name} = refl\n\n");
    (text, answered >> 16)
}

/// A case of at most so many transactions and twice as many steps: each fourth one has a sheet of three, each fifth one is damaged
/// anywhere.
fn case(random: &mut Random, number: usize, most: usize) -> Case {
    let steps = STEPS.min(2 * most);
    loop {
        let case = any_case(random, number, steps);
        if case
            .0
            .first()
            .is_some_and(|first| usize::from(first % 128) <= most)
        {
            return case;
        }
    }
}

fn any_case(random: &mut Random, number: usize, steps: usize) -> Case {
    match (number % 5, number % 4) {
        (4, 3) => random::ring_case(random, steps),
        (4, _) => random::case(random, steps),
        (_, 3) => random::ring_front(random, steps),
        _ => {
            let game = random::game(random);
            random::front(random, game, steps)
        }
    }
}

/// The facts about one case: every call, with a buffer that is exact, short or long by turns.
fn facts(random: &mut Random, number: usize, most: usize, refusals: &mut [usize; 38]) -> String {
    let mut case = case(random, number, most);
    let sound = random::game(random);
    let (sheet, setup) = match swap_tests::model::calls::outcome(&case.0, &case.1, &[]) {
        Ok(outcome) => (outcome.sheet, outcome.setup),
        Err(_) => random::read(&sound.0, &sound.1),
    };
    let mut text = String::new();
    let requests = random::every(random, &sheet, &setup, &case);
    for (name, bytes) in [("s", &case.0), ("u", &case.1), ("j", &case.2)] {
        text += &named(name, number, bytes);
    }
    for (turn, request) in requests.iter().enumerate() {
        if let Request::Shrink = request {
            case.2.truncate(4 * SHRUNK);
            text += &named("k", number, &case.2);
        }
        let exact = request.needed(&case);
        let room = [exact, exact.saturating_sub(1), exact + 7][(turn + number) % 3];
        let (fact, refusal) = fact(request, &case, number, room);
        text += &fact;
        refusals[refusal as usize] += 1;
    }
    text
}

fn main() -> io::Result<()> {
    let arguments: Vec<String> = std::env::args().skip(1).collect();
    let [count, seed, most, crates, folder] = &arguments[..] else {
        panic!("usage: definitions COUNT SEED MOST CRATES FOLDER")
    };
    let count: usize = count.parse().expect("a count");
    let most: usize = most.parse().expect("a number of transactions");
    let mut random = Random::new(seed.parse().expect("a seed"));
    let folder = Path::new(folder);
    fs::create_dir_all(folder.join("src"))?;
    fs::create_dir_all(folder.join("specs"))?;
    fs::write(
        folder.join("src/lib.rt"),
        "// Facts about the definitions: see specs/.\n",
    )?;
    fs::write(folder.join("specs/Opened.antt"), opener(Path::new(crates))?)?;
    let mut head = HEAD.to_string();
    for (place, name) in ANSWERS {
        writeln!(head, "use Rattle.{place}.{{{name}}}").unwrap();
    }
    let mut modules = "pub mod Opened\n".to_string();
    let mut refusals = [0; 38];
    for number in 0..count {
        let text = format!(
            "{head}\n{}",
            facts(&mut random, number, most, &mut refusals)
        );
        writeln!(modules, "pub mod Case{number}").unwrap();
        fs::write(folder.join(format!("specs/Case{number}.antt")), text)?;
    }
    fs::write(folder.join("specs/Lib.antt"), modules)?;
    println!("{count} cases with seed {seed}, answers by refusal 0 to 37: {refusals:?}");
    Ok(())
}
