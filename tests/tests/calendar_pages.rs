//! The calendar's page and its JSON, by the program built with sanitizers: read by strict readers, and each number and word
//! held to the model; names that would break out of the text; and files that must not be written.

use std::collections::{BTreeMap, BTreeSet};
use std::ffi::{OsStr, OsString};
use std::fs;
use std::os::unix::ffi::{OsStrExt, OsStringExt};
use std::path::{Path, PathBuf};
use std::process::{Command, Output};
use std::sync::OnceLock;
use swap_tests::calendar::clock::Clock;
use swap_tests::calendar::{self, data, ics, page, Length, Question, Start};
use swap_tests::json::{self, Value};
use swap_tests::markup;
use swap_tests::model::{ALICE, BOB, CAROL};
use swap_tests::random::{self, Random};
use swap_tests::samples::{self, Files};

fn top() -> PathBuf {
    let top = Path::new(env!("CARGO_MANIFEST_DIR")).join("..");
    top.canonicalize().expect("the repository")
}

/// The calendar with sanitizers, built once.
fn program() -> &'static Path {
    static BUILT: OnceLock<PathBuf> = OnceLock::new();
    BUILT.get_or_init(|| {
        let program = top().join("target/c/calendar_pages");
        let mut build = Command::new(top().join("examples/calendar/build"));
        let flags = [
            "-g",
            "-O1",
            "-fsanitize=address,undefined",
            "-fno-sanitize-recover=all",
        ];
        let status = build.arg(&program).args(flags).status();
        assert!(status.expect("the build runs").success());
        program
    })
}

/// An empty folder of this name.
fn folder(name: &str) -> PathBuf {
    let folder = Path::new(env!("CARGO_TARGET_TMPDIR")).join(name);
    let _ = fs::remove_dir_all(&folder);
    fs::create_dir_all(&folder).expect("a folder");
    folder
}

/// Runs the calendar in a folder. One that waits for ever is ended.
fn run<S: AsRef<OsStr>>(from: &Path, arguments: &[S]) -> Output {
    let mut command = Command::new("timeout");
    command.arg("300").arg(program()).args(arguments);
    command.env("TZ", "UTC0");
    command
        .current_dir(from)
        .output()
        .expect("the calendar runs")
}

/// The page and the JSON of the swaps in a folder, held to the model; the counts of bars by name.
fn compare(
    folder: &Path,
    swaps: &[(String, Files)],
    question: &Question,
) -> BTreeMap<String, usize> {
    let file = folder.with_extension("html");
    let mut words = question.arguments();
    words.extend(["--json", "--html"].map(str::to_string));
    words.push(file.to_str().expect("a name").to_string());
    words.push(folder.to_str().expect("a name").to_string());
    let output = run(&top(), &words);
    let expected = data::json(swaps, question);
    let printed = String::from_utf8(output.stdout).expect("UTF-8");
    let read = json::read(&printed).expect("JSON");
    for (read, expected) in read
        .get("swaps")
        .list()
        .iter()
        .zip(expected.get("swaps").list())
    {
        assert_eq!(read, expected, "with {question:?}");
    }
    assert_eq!(read, expected, "with {question:?}");
    let totals = calendar::text(swaps, question).1;
    assert_eq!(output.status.code(), Some(totals.status()));
    let written = fs::read_to_string(&file).expect("a page in UTF-8");
    let read = markup::read(&written).expect("a page");
    page::check_self_contained(&read);
    page::check_overview(&read, swaps, &expected, question);
    page::check_sections(&read, swaps, &expected, question);
    let mut bars = BTreeMap::new();
    for bar in read.named("section").iter().flat_map(|s| s.named("rect")) {
        *bars.entry(bar.get("class").to_string()).or_insert(0) += 1;
    }
    bars
}

fn written(name: &str, swaps: &[(String, Files)]) -> PathBuf {
    let folder = folder(name);
    for (name, files) in swaps {
        samples::write(&folder.join(name), files).expect("a folder to write to");
    }
    folder
}

fn blocks(blocks: u32) -> Question {
    Question {
        length: Length::Blocks(blocks),
        ..Question::default()
    }
}

/// Questions of every sort.
fn questions() -> Vec<Question> {
    let plain = Question::default();
    vec![
        plain,
        blocks(0),
        Question {
            margin: 3,
            side: Some(ALICE),
            ..blocks(2)
        },
        Question {
            start: Start::After(6),
            side: Some(BOB),
            ..blocks(3)
        },
        Question {
            side: Some(CAROL),
            slots: Some(Length::Days(1)),
            ..blocks(7)
        },
        Question {
            slots: Some(Length::Blocks(2)),
            margin: 1,
            ..blocks(1)
        },
        Question {
            start: Start::After(20),
            margin: 7,
            ..blocks(5)
        },
        Question {
            length: Length::Days(999_999),
            margin: 999_999_999,
            ..plain
        },
    ]
}

#[test]
fn stored_samples() {
    for name in ["swaps", "desk", "rings", "refused"] {
        let swaps = samples::in_folder(name);
        let folder = written(&format!("pages_{name}"), &swaps);
        for question in questions() {
            let bars = compare(&folder, &swaps, &question);
            println!("{name}, {question:?}: {bars:?}");
        }
    }
}

/// The warnings of a desk by the model.
fn warnings(swaps: &[(String, Files)], question: &Question) -> usize {
    calendar::text(swaps, question).1.warnings
}

/// The forty swaps, each shown for one side, at one day: each warning has a part of its bar covered.
#[test]
fn desk_of_forty() {
    let swaps = samples::in_folder("desk");
    let folder = written("pages_forty", &swaps);
    let bars = compare(&folder, &swaps, &Question::default());
    assert_eq!(bars["covered"], warnings(&swaps, &Question::default()));
    assert!(bars["window"] > 100 && bars["outage"] > 200 && !bars.contains_key("margin"));
    let none = compare(&folder, &swaps, &blocks(0));
    assert!(!none.contains_key("covered") && !none.contains_key("outage"));
}

/// The ring in which Alice has claimed: Carol is warned, and each coin's two ends are named.
#[test]
fn claimed_ring() {
    let swaps = samples::in_folder("rings/claimed");
    let folder = written("pages_ring", &swaps);
    let bars = compare(&folder, &swaps, &Question::default());
    assert_eq!((bars["covered"], bars["window"]), (1, 4));
    let written = fs::read_to_string(folder.with_extension("html")).expect("a page");
    let page = markup::read(&written).expect("a page");
    let title = page.named("h2")[0].text();
    assert_eq!(title, "claimed, Alice: paid, Bob, Carol: WARNING");
    let swap = &data::json(&swaps, &Question::default());
    let swap = &swap.get("swaps").list()[0];
    assert_eq!(swap.get("sides").list().len(), 3);
    let pays = |t: usize| swap.get("transactions").list()[t].get("pays").clone();
    assert_eq!(pays(5), Value::List(vec![Value::text("Carol")]));
    let both = ["Bob", "Carol"].map(Value::text).to_vec();
    assert_eq!(pays(1), Value::List(both));
}

fn random_swaps(random: &mut Random, count: usize) -> Vec<(String, Files)> {
    let swap = |i: usize| {
        let (sheet, setup) = match i % 3 {
            0 => random::ring_game(random),
            _ => random::game(random),
        };
        let manner = random::Manner {
            wrong: if i % 8 == 0 { 30 } else { 0 },
            leap: 10,
            ..random::manner(random, 60)
        };
        let journal = random::journal(random, &sheet, &setup, manner);
        let side = random.pick(&[
            None,
            None,
            Some("alice\n"),
            Some("bob"),
            Some("carol\n"),
            Some("Bob\n"),
        ]);
        let side = side.map(|name| name.as_bytes().to_vec());
        let base = random.percent(50).then(|| b"700000".to_vec());
        (
            format!("{i:03}"),
            [Some(sheet), Some(setup), Some(journal), side, base],
        )
    };
    (0..count).map(swap).collect()
}

#[test]
fn random_swaps_as_by_the_model() {
    let mut random = Random::new(71);
    let swaps = random_swaps(&mut random, 200);
    let folder = written("pages_random", &swaps);
    let mut sums: BTreeMap<String, usize> = BTreeMap::new();
    for question in questions() {
        for (name, count) in compare(&folder, &swaps, &question) {
            *sums.entry(name).or_insert(0) += count;
        }
    }
    println!("{sums:?}");
    assert!(["outage", "margin", "window", "covered"]
        .iter()
        .all(|&name| sums[name] > 20));
}

/// Names of folders, and their text.
const NAMES: [(&[u8], &str); 10] = [
    (b"\"'", "\"'"),
    (b"&amp;", "&amp;"),
    (b"<b>bold<!--", "<b>bold<!--"),
    (b"<script>alert(1)", "<script>alert(1)"),
    (b"back\\slash\\u0041", "back\\slash\\u0041"),
    (
        b"delete\x7fcsi\xc2\x9bend\xc2\x80\xc2\x9f\xc2\xa0",
        "delete\u{7f}csi\u{9b}end\u{80}\u{9f}\u{a0}",
    ),
    (b"tab\tline\nend", "tab\tline\nend"),
    (
        "\u{202e}\u{20ac}\u{1f512}".as_bytes(),
        "\u{202e}\u{20ac}\u{1f512}",
    ),
    (
        b"\xed\xa0\x80\xc0\xaf",
        "\u{fffd}\u{fffd}\u{fffd}\u{fffd}\u{fffd}",
    ),
    (b"\xff<", "\u{fffd}<"),
];

/// The swaps with question marks in their names.
fn renamed(swaps: &[(String, Files)], hidden: fn(char) -> bool) -> Vec<(String, Files)> {
    let swaps = swaps.iter().cloned();
    swaps
        .map(|(name, files)| (name.replace(hidden, "?"), files))
        .collect()
}

/// A text without control characters but line ends.
fn visible(bytes: Vec<u8>) -> String {
    let text = String::from_utf8(bytes).expect("UTF-8");
    assert!(!text.contains(|c: char| c.is_control() && c != '\n'));
    text
}

/// Names that are markup, quotes, control characters, and no UTF-8: on the screen, in JSON and on the page.
#[test]
fn names_are_text() {
    let sound = samples::in_folder("swaps/standing").remove(0).1;
    let faulty = samples::in_folder("refused/late_step").remove(0).1;
    for files in [sound, faulty] {
        let folder = folder("pages <names>&");
        for (bytes, _) in NAMES {
            let path = folder.join(OsString::from_vec(bytes.to_vec()));
            samples::write(&path, &files).expect("a folder to write to");
        }
        let swap = |(_, name): &(&[u8], &str)| (name.to_string(), files.clone());
        let swaps: Vec<(String, Files)> = NAMES.iter().map(swap).collect();
        let shown = renamed(&swaps, char::is_control);
        let file = folder.with_extension("html");
        let arguments = [
            OsStr::new("--json"),
            OsStr::new("--html"),
            file.as_ref(),
            folder.as_ref(),
        ];
        let output = run(&top(), &arguments);
        let read = json::read(&visible(output.stdout)).expect("JSON");
        let expected = data::json(&swaps, &Question::default());
        assert_eq!(read, expected);
        let page = fs::read(&file).expect("a page");
        let read = markup::read(&visible(page)).expect("a page");
        assert!(read.named("title")[0].text().ends_with("pages <names>&"));
        page::check_self_contained(&read);
        page::check_overview(&read, &shown, &expected, &Question::default());
        page::check_sections(&read, &swaps, &expected, &Question::default());
        let screen = visible(run(&top(), &[&folder]).stdout);
        let printed = renamed(&swaps, |c| c.is_control() || c == '\u{fffd}');
        assert_eq!(screen, calendar::text(&printed, &Question::default()).0);
    }
}

/// All below a folder: names, kinds, contents of plain files.
fn state(folder: &Path) -> BTreeMap<OsString, (bool, Vec<u8>)> {
    let entries = fs::read_dir(folder).expect("a folder");
    let entry = |entry: fs::DirEntry| {
        let plain = entry.file_type().expect("a kind").is_file();
        let bytes = if plain {
            fs::read(entry.path()).expect("a file")
        } else {
            Vec::new()
        };
        (entry.file_name(), (plain, bytes))
    };
    entries
        .map(|found| entry(found.expect("an entry")))
        .collect()
}

/// A folder with a swap, an old page, and what is no plain file.
fn occupied(name: &str) -> PathBuf {
    let folder = folder(name);
    samples::write(&folder.join("swap"), &samples::revoked()).expect("a swap");
    fs::create_dir(folder.join("empty")).expect("a folder");
    fs::write(folder.join("old.html"), "old").expect("a file");
    let made = Command::new("mkfifo").arg(folder.join("pipe")).status();
    assert!(made.expect("mkfifo runs").success());
    let link = |to: &str, name: &str| std::os::unix::fs::symlink(to, folder.join(name));
    link("/dev/full", "device").expect("a link");
    link("nowhere", "broken").expect("a link");
    fs::write(folder.join("first.html"), "first").expect("a file");
    fs::hard_link(folder.join("first.html"), folder.join("second.html")).expect("a link");
    folder
}

/// Exit status, arguments, and the message.
const REFUSED: [(i32, &str, &str); 19] = [
    (
        1,
        "--html new.html --base 0 --from 444 swap",
        "calendar: swap: --from 444 is in the past: the swap stands at height 444\n",
    ),
    (
        1,
        "--html new.html --base 0 --height 444 --at 2026-11-17T14:30Z --ics pipe swap",
        "calendar: pipe: not a plain file\n",
    ),
    (
        1,
        "--html new.html --base 0 --height 443 --at 2026-11-17T14:30Z --ics new.ics swap",
        "calendar: swap: stands at height 444, and --height is 443\n",
    ),
    (
        2,
        "--html new --base 0 --height 444 --at 2026-11-17T14:30Z --ics new swap",
        "calendar: --ics new: the file of --html\n",
    ),
    (1, "--html pipe swap", "calendar: pipe: not a plain file\n"),
    (
        1,
        "--html device swap",
        "calendar: device: a symbolic link, not a plain file\n",
    ),
    (
        1,
        "--html broken swap",
        "calendar: broken: a symbolic link, not a plain file\n",
    ),
    (
        1,
        "--html second.html swap",
        "calendar: second.html: a hard link: the file has another name too\n",
    ),
    (
        1,
        "--html empty swap",
        "calendar: empty: not a plain file\n",
    ),
    (
        1,
        "--html empty/ swap",
        "calendar: empty/: Is a directory\n",
    ),
    (
        1,
        "--html no/page swap",
        "calendar: no/page: No such file or directory\n",
    ),
    (
        1,
        "--html old.html/page swap",
        "calendar: old.html/page: Not a directory\n",
    ),
    (
        1,
        "--html old.html nowhere",
        "calendar: nowhere: No such file or directory\n",
    ),
    (
        1,
        "--html new.html nowhere",
        "calendar: nowhere: No such file or directory\n",
    ),
    (
        1,
        "--html old.html empty",
        "calendar: empty: no swap here\n",
    ),
    (
        2,
        "--html old.html --size swap",
        "calendar: --size: no such argument\n",
    ),
    (
        2,
        "--html old.html --html new.html swap",
        "calendar: --html new.html: given twice\n",
    ),
    (2, "swap --html", "calendar: --html: no value\n"),
    (
        2,
        "--html old.html --json --full swap",
        "calendar: --json: not beside --full\n",
    ),
];

#[test]
fn nothing_is_written() {
    let folder = occupied("pages_refused");
    let before = state(&folder);
    for (status, words, message) in REFUSED {
        let arguments: Vec<&str> = words.split(' ').collect();
        let output = run(&folder, &arguments);
        let told = String::from_utf8_lossy(&output.stderr);
        assert!(told.starts_with(message), "{words}: {told}");
        assert_eq!(
            (output.status.code(), output.stdout.len()),
            (Some(status), 0),
            "{words}"
        );
        assert_eq!(state(&folder), before, "{words}");
    }
}

/// A page that does not fit on the disk leaves the old one as it is, and nothing beside it.
#[test]
fn page_is_written_whole_or_not() {
    let folder = occupied("pages_whole");
    let before = state(&folder);
    let script = "trap '' XFSZ; ulimit -f 4; exec \"$0\" --html old.html swap";
    let mut command = Command::new("bash");
    command
        .args(["-c", script])
        .arg(program())
        .current_dir(&folder);
    let output = command.output().expect("bash runs");
    let told = String::from_utf8_lossy(&output.stderr);
    assert_eq!(
        (output.status.code(), &*told),
        (Some(1), "calendar: old.html: File too large\n")
    );
    assert_eq!(state(&folder), before);
    let output = run(&folder, &["--html", "old.html", "swap"]);
    let after = state(&folder);
    assert_eq!(output.status.code(), Some(3));
    assert_eq!(
        after.keys().collect::<Vec<_>>(),
        before.keys().collect::<Vec<_>>()
    );
    let page = &after[OsStr::from_bytes(b"old.html")].1;
    markup::read(std::str::from_utf8(page).expect("UTF-8")).expect("a page");
}

/// The swap with a base by which it stands at this height.
fn standing_at(height: u32, (name, mut files): (String, Files)) -> (String, Files) {
    let journal = files[2].as_deref().unwrap_or_default();
    let mined = journal.chunks(4).filter(|step| step[0] == 6).count();
    files[4] = Some(format!("{}", height - mined as u32).into_bytes());
    (name, files)
}

/// The iCalendar files and the JSON of desks at one height: read by RFC 5545's rules, each event is the model's, and a second file has
/// the same names for them.
#[test]
fn icalendar() {
    let mut random = Random::new(72);
    let names = ["swaps/fresh", "swaps/paid", "swaps", "desk", "rings"];
    let mut desks: Vec<Vec<(String, Files)>> = names.map(samples::in_folder).to_vec();
    desks.push(random_swaps(&mut random, 60));
    let odd = "a;b,c\\\u{20ac}\u{20ac} the name of a swap that is longer than the line \u{1f512}";
    let mut one = samples::in_folder("swaps/standing");
    one[0].0 = odd.to_string();
    desks.push(one);
    let (mut ends, mut slots) = (0, 0);
    for (number, swaps) in desks.into_iter().enumerate() {
        let swaps = swaps.into_iter().map(|swap| standing_at(900_000, swap));
        let swaps: Vec<(String, Files)> = swaps.collect();
        let folder = written(&format!("pages_ics_{number}"), &swaps);
        for later in [0, 1_000] {
            let question = timed(900_000, 29_915_430 + later);
            let file = folder.with_extension("ics");
            let mut words = question.arguments();
            words.extend(["--json", "--ics", file.to_str().expect("a name")].map(str::to_string));
            words.push(folder.to_str().expect("a name").to_string());
            let output = run(&top(), &words);
            assert_eq!(
                output.status.code(),
                Some(calendar::text(&swaps, &question).1.status())
            );
            let printed = String::from_utf8(output.stdout).expect("UTF-8");
            assert_eq!(json::read(&printed), Ok(data::json(&swaps, &question)));
            let events = ics::read(&fs::read_to_string(&file).expect("UTF-8"));
            let expected = ics::events(&swaps, &question);
            for (event, expected) in events.iter().zip(&expected) {
                assert_eq!(event, expected);
            }
            assert_eq!(events.len(), expected.len());
            let uids: BTreeSet<&String> = events.iter().map(|event| &event[1].1).collect();
            assert_eq!(uids.len(), events.len());
            ends += uids.iter().filter(|uid| uid.starts_with("payout-")).count();
            slots += uids.iter().filter(|uid| uid.starts_with("slot-")).count();
        }
    }
    println!("{ends} steps to take, {slots} stretches");
    assert!(ends > 50 && slots > 10);
}

/// A day's outage asked for at this time, with stretches of three blocks and a margin of one.
fn timed(height: u32, at: i64) -> Question {
    Question {
        margin: 1,
        slots: Some(Length::Blocks(3)),
        clock: Some(Clock {
            height,
            at,
            minutes: 10,
            zone: 0,
        }),
        ..Question::default()
    }
}

/// The example of `docs/FORMATS.md`.
#[test]
fn example_of_the_document() {
    let document = fs::read_to_string(top().join("docs/FORMATS.md")).expect("the document");
    let (_, rest) = document
        .split_once("```json calendar\n")
        .expect("an example");
    let (example, _) = rest.split_once("```").expect("its end");
    let swaps = samples::in_folder("swaps/numbers");
    let expected = data::json(&swaps, &Question::default());
    assert_eq!(json::read(example), Ok(expected));
}

/// The readers refuse what is not well-formed.
#[test]
fn readers_are_strict() {
    let sound = "{\"a\": [1, null, true, \"x\\u0041\"], \"b\": {}}";
    let read = json::read(sound).expect("JSON");
    assert_eq!(read.get("a").list()[3], Value::text("xA"));
    let wrong = [
        "",
        "{\"a\": 1,}",
        "[1 2]",
        "01",
        "\"\n\"",
        "{\"a\": 1, \"a\": 2}",
        "[1] x",
        "\"\\x\"",
        "-1",
        "nul",
    ];
    for text in wrong {
        assert!(json::read(text).is_err(), "{text}");
    }
    let page = |body: &str| markup::read(&format!("<!DOCTYPE html>\n<html>{body}</html>\n"));
    let read = page("<p class=\"a\">x &lt;&amp; <rect/></p>").expect("a page");
    assert_eq!((read.text().as_str(), read.named("p").len()), ("x <& ", 1));
    let wrong = [
        "<p>",
        "</p>",
        "<p></b>",
        "a & b",
        "a > b",
        "<p x=1></p>",
        "<p x=\"1\" x=\"1\"></p>",
        "<p/>",
        "&nbsp;",
        "\t",
    ];
    for body in wrong {
        assert!(page(body).is_err(), "{body}");
    }
}
