//! The calendar of `examples/calendar` against the model: its stored samples and outputs, the outages around every
//! slack, outages that begin later, random swaps, and files that are too long or no files.

use std::collections::BTreeSet;
use std::fs;
use std::path::{Path, PathBuf};
use std::process::Command;
use swap_tests::calendar::clock::Clock;
use swap_tests::calendar::stand::Stand;
use swap_tests::calendar::{self, Length, Question, Start, Totals};
use swap_tests::model::calls::{self, Outcome};
use swap_tests::model::journal::MOST_BYTES;
use swap_tests::model::{open, sheet, ALICE, BOB, CAROL};
use swap_tests::random::{self, Case, Random, MINE};
use swap_tests::samples::{self, Files};

fn top() -> PathBuf {
    Path::new(env!("CARGO_MANIFEST_DIR")).join("..")
}

fn example() -> PathBuf {
    top().join("examples/calendar")
}

/// What the calendar prints to the standard output and to the standard error, and its exit status. One that waits for ever
/// is ended.
fn run(folder: &Path, question: &Question) -> (String, String, i32) {
    let output = Command::new("timeout")
        .arg("300")
        .arg(top().join("calendar"))
        .arg(folder)
        .args(question.arguments())
        .env("TZ", zone(question))
        .output()
        .expect("the calendar runs");
    let text = |bytes: Vec<u8>| String::from_utf8(bytes).expect("text");
    let status = output.status.code().expect("an exit status");
    let said = text(output.stderr);
    let said = said.lines().filter(|line| line.starts_with("calendar: "));
    let said = said.map(|line| format!("{line}\n")).collect();
    (text(output.stdout), said, status)
}

/// The local time of a question, as POSIX writes it: the sign is that of UTC's distance from it.
fn zone(question: &Question) -> String {
    let minutes = question.clock.map_or(0, |clock| clock.zone);
    let sign = if minutes > 0 { "-" } else { "+" };
    format!("LOC{sign}{}:{:02}", minutes.abs() / 60, minutes.abs() % 60)
}

/// The calendar over the swaps of a folder, held to the model. Nothing is counted where the question does not fit.
fn compare(folder: &Path, swaps: &[(String, Files)], question: &Question) -> Totals {
    let told = calendar::complaints(swaps, question);
    let (printed, said, status) = run(folder, question);
    assert_eq!(said, told, "with {question:?}");
    if !told.is_empty() {
        assert_eq!((printed.as_str(), status), ("", 1), "with {question:?}");
        return Totals::default();
    }
    let (text, totals) = calendar::text(swaps, question);
    for (line, (printed, expected)) in printed.lines().zip(text.lines()).enumerate() {
        assert_eq!(printed, expected, "line {} with {question:?}", line + 1);
    }
    assert_eq!(printed, text, "with {question:?}");
    assert_eq!(status, totals.status(), "with {question:?}");
    totals
}

/// The same in both forms.
fn compare_both(folder: &Path, swaps: &[(String, Files)], question: &Question) -> Totals {
    let full = Question {
        full: true,
        ..*question
    };
    let totals = compare(folder, swaps, question);
    assert_eq!(compare(folder, swaps, &full), totals);
    totals
}

/// An outage of so many blocks, from the next one on.
fn blocks(blocks: u32) -> Question {
    Question {
        length: Length::Blocks(blocks),
        ..Question::default()
    }
}

/// Writes swaps to a new folder of this name.
fn written(name: &str, swaps: &[(String, Files)]) -> PathBuf {
    let folder = Path::new(env!("CARGO_TARGET_TMPDIR")).join(name);
    let _ = fs::remove_dir_all(&folder);
    for (name, files) in swaps {
        samples::write(&folder.join(name), files).expect("a folder to write to");
    }
    folder
}

/// The names in a folder, sorted.
fn names(folder: &Path) -> Vec<String> {
    let entries = fs::read_dir(folder).expect("a folder");
    let name = |entry: fs::DirEntry| entry.file_name().to_string_lossy().into_owned();
    let mut names: Vec<String> = entries
        .map(|entry| name(entry.expect("an entry")))
        .collect();
    names.sort();
    names
}

#[test]
fn stored_samples() {
    let folder = example().join("samples");
    let mut listed: Vec<String> = Vec::new();
    for part in names(&folder) {
        let swaps = names(&folder.join(&part));
        listed.extend(swaps.iter().map(|swap| format!("{part}/{swap}")));
    }
    let samples = samples::samples();
    let known: BTreeSet<String> = samples.iter().map(|(name, _)| name.to_string()).collect();
    assert_eq!(listed.into_iter().collect::<BTreeSet<_>>(), known);
    for (name, files) in samples {
        assert_eq!(samples::read(&folder.join(&name)), files, "{name}");
    }
}

#[test]
fn stored_outputs() {
    let cases = calendar::cases(&example().join("cases.txt")).expect("cases");
    let mut compared = 0;
    for case in cases {
        let path = example().join("expected").join(case.file());
        let stored = fs::read_to_string(path).expect("an expected output");
        if let Some((text, status)) = case.expected() {
            assert_eq!(stored, text, "{}", case.name);
            assert_eq!(case.status, status, "{}", case.name);
            compared += 1;
        }
    }
    println!("{compared} stored outputs are the model's");
    assert!(compared >= 35);
}

/// The examples of the README and of the calendar's page are stored outputs.
#[test]
fn examples_of_the_documents() {
    let examples = [
        ("README.md", "embedded_alice"),
        ("docs/CALENDAR.md", "default"),
        ("docs/CALENDAR.md", "standing"),
        ("docs/CALENDAR.md", "ring"),
    ];
    for (document, name) in examples {
        let text = fs::read_to_string(top().join(document)).expect("a document");
        let path = example().join(format!("expected/{name}.txt"));
        let stored = fs::read_to_string(path).expect("an expected output");
        assert!(text.contains(&stored), "{document}: {name}");
    }
}

/// A sound swap after its journal.
fn outcome(files: &Files) -> Outcome {
    let [Some(sheet), Some(setup), Some(journal), ..] = files else {
        panic!("a file is missing")
    };
    calls::outcome(sheet, setup, journal).expect("a sound swap")
}

fn copy(outcome: &Outcome) -> Outcome {
    Outcome {
        sheet: outcome.sheet.clone(),
        setup: outcome.setup,
        refusal: outcome.refusal,
        course: outcome.course.clone(),
    }
}

/// Where a side stands.
fn stand(outcome: &Outcome, side: u8) -> Stand {
    let open = open::steps(&outcome.sheet, &outcome.setup, &outcome.course.position);
    Stand::of(outcome, &open, side)
}

/// The slacks of all parties of a swap that some outage is longer than.
fn slacks(files: &Files) -> Vec<u32> {
    let outcome = outcome(files);
    let stands = outcome
        .sheet
        .parties
        .iter()
        .map(|&side| stand(&outcome, side));
    let bounded = stands.filter(Stand::is_bounded);
    bounded.map(|stand| stand.slack).collect()
}

/// Every sample with outages of as many blocks as each slack has, one fewer and one more.
#[test]
fn outages_around_the_slack() {
    for part in ["swaps", "rings"] {
        let swaps = samples::in_folder(part);
        let folder = example().join("samples").join(part);
        let slacks: BTreeSet<u32> = swaps.iter().flat_map(|(_, f)| slacks(f)).collect();
        assert!(slacks.len() > 1, "{slacks:?}");
        for &slack in &slacks {
            let around = [slack.saturating_sub(1), slack, slack + 1];
            let warnings = around.map(|n| compare_both(&folder, &swaps, &blocks(n)).warnings);
            println!("a slack of {slack} blocks, warnings {warnings:?}");
            assert!(warnings[0] <= warnings[1] && warnings[1] < warnings[2]);
        }
    }
}

/// Whether the calendar warns Alice, by the line of her payout.
fn warns_alice(folder: &Path, question: &Question) -> bool {
    let full = Question {
        full: true,
        side: Some(ALICE),
        ..*question
    };
    let (text, _, status) = run(folder, &full);
    let mut lines = text
        .lines()
        .filter(|line| line.starts_with("  payout of Alice: "));
    let warns = lines.next().expect("her line").contains("WARNING: ");
    assert_eq!(status, if warns { 3 } else { 0 });
    warns
}

/// The boundary in so many words: refund_2 must be confirmed in block 588, and 444 blocks are mined. An outage that begins
/// later counts from now, and so does the margin after it.
#[test]
fn last_block_of_an_outage() {
    let folder = written(
        "calendar_boundary",
        &[("revoked".to_string(), samples::revoked())],
    );
    let warns = |question: &Question| warns_alice(&folder, question);
    let margin = |n: u32, margin: u32| Question {
        margin,
        ..blocks(n)
    };
    let later = |from: u32, n: u32| Question {
        start: Start::After(from - 445),
        ..blocks(n)
    };
    assert!(!warns(&blocks(588 - 444 - 1)));
    assert!(warns(&blocks(588 - 444)));
    assert!(!warns(&margin(100, 43)) && warns(&margin(100, 44)));
    assert!(!warns(&later(500, 88)) && warns(&later(500, 89)));
    assert!(warns(&later(588, 1)) && warns(&later(589, 1)));
}

/// 144 blocks a day, careful, both coins locked, 288 blocks mined: revoke fits in block 289, and then timeout in block
/// 578. An outage of two days costs Alice nothing, one block more can.
#[test]
fn deadline_of_a_parent_to_come() {
    let folder = example().join("samples/swaps/standing");
    let warns = |question: &Question| warns_alice(&folder, question);
    assert!(!warns(&blocks(288)) && warns(&blocks(289)) && warns(&blocks(300)));
    let later = |wait: u32| Question {
        start: Start::After(wait),
        ..blocks(1)
    };
    assert!(!warns(&later(287)) && warns(&later(288)));
}

/// What secures a payout is no warning, and is no longer one after the step that the calendar names.
#[test]
fn steps_that_help() {
    let mut random = Random::new(46);
    let (mut helped, mut sides) = (0, 0);
    for _ in 0..1_500 {
        let game = match random.percent(20) {
            true => random::ring_game(&mut random),
            false => random::game(&mut random),
        };
        let manner = random::Manner {
            wrong: 0,
            leap: 10,
            ..random::manner(&mut random, 40)
        };
        let journal = random::journal(&mut random, &game.0, &game.1, manner);
        let now = outcome(&[Some(game.0), Some(game.1), Some(journal), None, None]);
        for &side in now.sheet.parties {
            let told = stand(&now, side);
            sides += 1;
            if let Some((step, then)) = told.help {
                let mut after = copy(&now);
                assert_eq!(step[1], side);
                assert_eq!(after.course.take(&now.sheet, &now.setup, &step), 0);
                let reached = stand(&after, side);
                assert!(reached.standing.is_secured() && reached.slack == then);
                assert!(then > told.slack || !told.is_bounded() || told.slack == 0);
                helped += 1;
            }
        }
    }
    println!("{helped} of {sides} sides have a step that helps");
    assert!(helped > 100);
}

/// Random swaps of any sort: accepted ones after walks with leaps to heights that decide something, and refused ones.
fn random_swaps(random: &mut Random, count: usize) -> Vec<(String, Files)> {
    let number = |i: usize| format!("{i:03}");
    let mut swaps = Vec::new();
    for i in 0..count {
        let (sheet, setup, journal) = match i % 4 {
            0 => random::case(random, 40),
            1 => random::led_case(random, 40, (i / 4 % 22) as u32 + 1),
            kind => {
                let (sheet, setup) = match kind {
                    2 => random::ring_game(random),
                    _ => random::game(random),
                };
                let manner = random::Manner {
                    wrong: 0,
                    leap: 10,
                    ..random::manner(random, 60)
                };
                let journal = random::journal(random, &sheet, &setup, manner);
                (sheet, setup, journal)
            }
        };
        let side = random.pick(&[
            None,
            None,
            Some("alice\n"),
            Some("bob"),
            Some("carol\n"),
            Some("Bob\n"),
        ]);
        let side = side.map(|name| name.as_bytes().to_vec());
        swaps.push((
            number(i),
            [Some(sheet), Some(setup), Some(journal), side, None],
        ));
    }
    swaps
}

/// The height of the real chain at which the swaps with a base stand.
const HEIGHT: u32 = 800_000;

/// The swap with a base by which it stands at this height; a swap that is refused, with some base.
fn standing_at(height: u32, mut files: Files) -> Files {
    let mined = files[2].as_ref().map_or(0, |journal| {
        journal.chunks(4).filter(|step| step[0] == 6).count()
    });
    files[4] = Some(format!("{}\n", height - mined as u32).into_bytes());
    files
}

/// The chain stands at this height on 2028-02-28 at 20:17 UTC, with 7 minutes a block.
fn clock(height: u32, zone: i64) -> Clock {
    Clock {
        height,
        at: 30_589_697,
        minutes: 7,
        zone,
    }
}

/// Questions of every sort.
fn questions() -> Vec<Question> {
    let lengths = [0, 1, 2, 3, 7, 400].map(blocks).to_vec();
    let plain = Question::default();
    let (side, length) = (Some(ALICE), Length::Blocks(5));
    let others = [
        plain,
        Question { side, ..plain },
        Question {
            side: Some(BOB),
            ..blocks(3)
        },
        Question {
            side: Some(CAROL),
            slots: Some(Length::Days(1)),
            ..blocks(7)
        },
        Question {
            slots: Some(Length::Blocks(2)),
            margin: 1,
            ..blocks(1)
        },
        Question {
            margin: 2,
            ..blocks(2)
        },
        Question {
            start: Start::After(6),
            ..blocks(3)
        },
        Question {
            start: Start::After(1),
            length,
            ..plain
        },
        Question {
            start: Start::Height(HEIGHT + 20),
            length,
            ..plain
        },
        Question {
            slots: Some(Length::Blocks(3)),
            clock: Some(clock(HEIGHT, 330)),
            ..plain
        },
        Question {
            length: Length::Days(999_999),
            start: Start::After(999_999_999),
            margin: 999_999_999,
            ..plain
        },
    ];
    [lengths, others.to_vec()].concat()
}

#[test]
fn random_swaps_as_by_the_model() {
    let mut random = Random::new(41);
    let swaps = random_swaps(&mut random, 400);
    let based =
        |(name, files): &(String, Files)| (name.clone(), standing_at(HEIGHT, files.clone()));
    let swaps: Vec<(String, Files)> = swaps.iter().map(based).collect();
    let folder = written("calendar_random", &swaps);
    let mut sums = [0; 4];
    for question in questions() {
        let totals = compare_both(&folder, &swaps, &question);
        println!("{question:?}: {totals:?}");
        assert!(totals.warnings == 0 || question.length != Length::Blocks(0));
        let counts = [
            totals.warnings,
            totals.not_yet,
            totals.given_up,
            totals.refused,
        ];
        for (sum, count) in sums.iter_mut().zip(counts) {
            *sum += count;
        }
    }
    assert!(sums.iter().all(|&sum| sum > 100), "{sums:?}");
}

/// Swaps with a base, without one and with a wrong one: heights are each swap's own or the real chain's; an outage from a
/// height on is refused by name where a base is missing, and in the past of a swap, by one block too.
#[test]
fn bases() {
    let mut random = Random::new(44);
    let swaps = random_swaps(&mut random, 60);
    let mixed = |(i, (name, files)): (usize, &(String, Files))| {
        let mut files = files.clone();
        files[4] = match i % 5 {
            0 | 1 => None,
            2 => Some(
                random
                    .pick(&["", "x\n", "-1", "500000000", "0000000001", "1\n2"])
                    .into(),
            ),
            _ => standing_at(HEIGHT + i as u32, files.clone())[4].take(),
        };
        (name.clone(), files)
    };
    let swaps: Vec<(String, Files)> = swaps.iter().enumerate().map(mixed).collect();
    let based: Vec<(String, Files)> = swaps
        .iter()
        .filter(|(_, f)| f[4].is_some())
        .cloned()
        .collect();
    let from = |height: u32| Question {
        start: Start::Height(height),
        ..blocks(3)
    };
    let (some, all) = (
        written("calendar_mixed", &swaps),
        written("calendar_based", &based),
    );
    assert!(compare_both(&some, &swaps, &blocks(3)).refused > 10);
    let timed = Question {
        clock: Some(clock(HEIGHT + 3, -90)),
        ..blocks(3)
    };
    for swaps in [(&some, &swaps), (&all, &based)] {
        assert_eq!(compare_both(swaps.0, swaps.1, &timed), Totals::default());
    }
    for height in [1, HEIGHT, HEIGHT + 30, HEIGHT + 59, HEIGHT + 60] {
        assert_eq!(
            compare_both(&some, &swaps, &from(height)),
            Totals::default()
        );
        let shown = compare_both(&all, &based, &from(height)).swaps > 0;
        assert_eq!(shown, height == HEIGHT + 60);
        let told = calendar::complaints(&based, &from(height));
        assert_eq!(told.lines().count() > 5, height <= HEIGHT + 30);
    }
}

/// Over a hundred swaps on each of two sheets, more than one bundle takes, some with a setup or a journal that is refused.
fn swaps_on_two_sheets(random: &mut Random) -> Vec<(String, Files)> {
    let games = [random::game(random), random::game(random)];
    let swap = |i: usize| {
        let (sheet, mut setup) = games[i % 2].clone();
        let manner = random::manner(random, 40);
        let mut journal = random::journal(random, &sheet, &setup, manner);
        match i % 9 {
            0 => setup.truncate(3),
            1 => setup.push(0),
            2 => setup[2] = 9,
            3 => journal.push(6),
            _ => {}
        }
        (
            format!("{i:03}"),
            [Some(sheet), Some(setup), Some(journal), None, None],
        )
    };
    (0..260).map(swap).collect()
}

#[test]
fn swaps_that_share_a_sheet() {
    let mut random = Random::new(43);
    let swaps = swaps_on_two_sheets(&mut random);
    let folder = written("calendar_shared", &swaps);
    let totals = compare_both(&folder, &swaps, &Question::default());
    println!("{totals:?}");
    assert!(totals.refused > 100 && totals.refused < 250, "{totals:?}");
}

/// An outage that begins later: where it is no warning now, the side, which takes no step until then, is not warned at its
/// beginning.
#[test]
fn later_outages() {
    let mut random = Random::new(43);
    let mut counts = [0; 3];
    for _ in 0..1_500 {
        let game = match random.percent(20) {
            true => random::ring_game(&mut random),
            false => random::game(&mut random),
        };
        let manner = random::Manner {
            wrong: 0,
            leap: 5,
            ..random::manner(&mut random, 60)
        };
        let journal = random::journal(&mut random, &game.0, &game.1, manner);
        let now = outcome(&[Some(game.0), Some(game.1), Some(journal), None, None]);
        let side = random.pick(now.sheet.parties);
        let mut then = copy(&now);
        for _ in 0..random.below(30) {
            let position = &then.course.position;
            let mut open = open::steps(&then.sheet, &then.setup, position);
            open.retain(|step| step[1] != side);
            if !open.is_empty() {
                let step = random.pick(&open);
                then.course.take(&now.sheet, &now.setup, &step);
            }
        }
        let wait = then.course.position.mined - now.course.position.mined;
        let length = random.below(20) as u32 + 1;
        let told = stand(&now, side);
        let found = stand(&then, side);
        let kept = told.standing.is_secured() && !told.warns(wait + length);
        assert!(!kept || found.standing.is_secured() && !found.warns(length));
        counts[0] += usize::from(told.warns(wait + length));
        counts[1] += usize::from(found.warns(length));
        counts[2] += usize::from(kept && wait > 0);
    }
    println!("{counts:?} warnings, those at the beginning, outages without");
    assert!(counts.iter().all(|&count| count > 20), "{counts:?}");
}

/// How long and when on small desks: each stretch is what the rule leaves of all starts, tried one by one, and the longest
/// outage is the last that the rule leaves; so it is with the steps taken that help.
#[test]
fn stretches_block_by_block() {
    let mut random = Random::new(45);
    let (mut ends, mut opens, mut longest, mut longer) = (0, 0, 0, 0);
    for _ in 0..300 {
        let swaps: Vec<(String, Files)> = (0..3)
            .map(|i| {
                let (sheet, setup) = random::game(&mut random);
                let manner = random::manner(&mut random, 40);
                let journal = random::journal(&mut random, &sheet, &setup, manner);
                let files = [Some(sheet), Some(setup), Some(journal), None, None];
                (format!("{i}"), files)
            })
            .collect();
        let (length, margin) = (random.below(4) as u32 + 1, random.below(3) as u32);
        let warns = |swaps: &[(String, Files)], side: u8, wait: u32, blocks: u32| {
            let question = Question {
                side: Some(side),
                start: Start::After(wait),
                margin,
                ..self::blocks(blocks)
            };
            calendar::text(swaps, &question).1.warnings > 0
        };
        for side in [ALICE, BOB] {
            let told = calendar::how_long(&swaps, Length::Blocks(length), margin, side);
            let is_free = |slot: Option<(u32, Option<u32>)>, wait: u32| {
                slot.is_some_and(|(a, b)| a <= wait + 1 && b.is_none_or(|b| wait + length <= b))
            };
            let done: Vec<(String, Files)> = swaps
                .iter()
                .map(|(name, files)| (name.clone(), helped(files.clone(), side)))
                .collect();
            for wait in 0..40 {
                let [now, then] = [&swaps, &done].map(|swaps| !warns(swaps, side, wait, length));
                assert_eq!(is_free(told.slots.now, wait), now, "{told:?}, {wait}");
                assert_eq!(is_free(told.slots.done, wait), then, "{told:?}, {wait}");
            }
            for blocks in 1..40 {
                let kept = told.any || told.blocks.is_some_and(|most| blocks <= most);
                assert_eq!(kept, !warns(&swaps, side, 0, blocks), "{told:?}, {blocks}");
            }
            ends += usize::from(told.slots.now.is_some_and(|(_, last)| last.is_some()));
            opens += usize::from(told.slots.now.is_some_and(|(_, last)| last.is_none()));
            longest += usize::from(told.blocks.is_some_and(|blocks| blocks > 0));
            longer += usize::from(told.slots.done != told.slots.now);
        }
    }
    println!("{ends} stretches with an end, {opens} without, {longest} longest outages, {longer} longer with a step");
    assert!([ends, opens, longest, longer]
        .iter()
        .all(|&count| count > 20));
}

/// The swap after the side's step that helps, if it is sound and there is one.
fn helped(mut files: Files, side: u8) -> Files {
    let [Some(sheet), Some(setup), Some(journal), ..] = &files else {
        panic!("a file is missing")
    };
    if calls::run(sheet, setup, journal).refusal != 0 {
        return files;
    }
    if let Some((step, _)) = stand(&outcome(&files), side).help {
        files[2].as_mut().expect("a journal").extend(step);
    }
    files
}

/// A swap that is refused with this number, 1 to 22 or 24.
fn refused_swap(random: &mut Random, number: u32) -> Files {
    let mut tries = (0..10_000).map(|_| random::led_case(random, 60, number));
    let refused = |case: &Case| calls::run(&case.0, &case.1, &case.2).refusal == number;
    let (sheet, setup, journal) = tries.find(refused).expect("such a swap");
    [Some(sheet), Some(setup), Some(journal), None, None]
}

/// Each refusal but 23, which needs a long journal.
#[test]
fn every_refusal() {
    let mut random = Random::new(42);
    let numbers = (1..=24).filter(|&number| number != 23);
    let mut swaps: Vec<(String, Files)> = numbers
        .map(|number| (format!("{number:02}"), refused_swap(&mut random, number)))
        .collect();
    let (sheet, setup, journal) = random::led_ring_case(&mut random, 60, 32);
    let ring = [Some(sheet), Some(setup), Some(journal), None, None];
    swaps.push(("32".to_string(), ring));
    let folder = written("calendar_refusals", &swaps);
    assert_eq!(
        compare_both(&folder, &swaps, &Question::default()).refused,
        24
    );
}

/// Names in the order of their bytes; a file and a hidden folder are passed over, a broken link is not.
#[test]
fn names_of_swaps() {
    let names = ["10", "9", "Zeta", "a\tb", "alpha", "with space", "zz"];
    let sound = samples::in_folder("swaps/numbers").remove(0).1;
    let swaps = names.map(|name| (name.to_string(), sound.clone()));
    let folder = written("calendar_names", &swaps);
    samples::write(&folder.join(".hidden"), &sound).expect("a hidden folder");
    fs::write(folder.join("notes.txt"), "no swap").expect("a file");
    std::os::unix::fs::symlink("nowhere", folder.join("link")).expect("a broken link");
    let mut shown = swaps.to_vec();
    shown[3].0 = "a?b".to_string();
    shown.insert(5, ("link".to_string(), [None, None, None, None, None]));
    let totals = compare_both(&folder, &shown, &Question::default());
    assert_eq!((totals.swaps, totals.refused), (8, 1));
}

/// Puts something that is no file in a file's place: the reason that is told.
fn put(kind: &str, path: &Path) -> &'static str {
    let made = match kind {
        "pipe" => Command::new("mkfifo").arg(path).status().map(|_| ()),
        "folder" => fs::create_dir(path),
        "device" => std::os::unix::fs::symlink("/dev/zero", path),
        _ => std::os::unix::fs::symlink("nowhere", path),
    };
    made.expect("something in the file's place");
    match kind {
        "link" => "No such file or directory",
        _ => "not a plain file",
    }
}

/// Named pipes, folders, devices and broken links in a file's place: each is refused, and none is waited for.
#[test]
fn no_plain_files() {
    let sound = samples::in_folder("swaps/standing").remove(0).1;
    let kinds = ["device", "folder", "link", "pipe"];
    let places = [("journal.bin", 2), ("side", 3), ("base", 4)];
    let mut expected = Vec::new();
    let folder = written("calendar_no_files", &[]);
    for (file, place) in places {
        for kind in kinds {
            let (name, mut files) = (format!("{place}_{kind}"), sound.clone());
            files[place] = None;
            samples::write(&folder.join(&name), &files).expect("a folder to write to");
            let reason = put(kind, &folder.join(&name).join(file));
            expected.push(format!("UNREADABLE {name:<16} {file}: {reason}"));
        }
    }
    let (text, _, status) = run(&folder, &Question::default());
    let lines: Vec<&str> = text.lines().skip(2).take(12).collect();
    assert_eq!((lines.join("\n"), status), (expected.join("\n"), 1));
    let (text, _, status) = run(&folder.join("2_pipe/journal.bin"), &Question::default());
    assert_eq!((text.as_str(), status), ("", 1));
}

/// Files at the largest valid length, and one byte and one step beyond it: none is cut.
#[test]
fn long_files() {
    let sheet = sheet::saswap(3);
    let lock_a = [[3, 0, 0, 2], [5, 2, 0, 2], MINE];
    let mut swaps = Vec::new();
    for length in [MOST_BYTES, MOST_BYTES + 1, MOST_BYTES + 4, 2 * MOST_BYTES] {
        let mut journal = lock_a.concat();
        journal.extend(MINE.iter().cycle().take(length - journal.len()));
        let files = [
            Some(sheet.clone()),
            Some(vec![3, 0, 0, 0]),
            Some(journal),
            None,
            None,
        ];
        swaps.push((format!("journal_{length:06}"), files));
    }
    for setup in [vec![3, 0, 0, 0, 0], vec![3, 0, 0, 0, 0, 0, 0, 0]] {
        let name = format!("setup_{}", setup.len());
        let files = [Some(sheet.clone()), Some(setup), Some(vec![]), None, None];
        swaps.push((name, files));
    }
    for length in [95, 96, 197, 198, 300] {
        let mut longer = sheet.clone();
        longer.resize(length, 0);
        let files = [
            Some(longer),
            Some(vec![3, 0, 0, 0]),
            Some(vec![]),
            None,
            None,
        ];
        swaps.push((format!("sheet_{length:03}"), files));
    }
    let folder = written("calendar_lengths", &swaps);
    let totals = compare_both(&folder, &swaps, &Question::default());
    assert_eq!(totals.refused, swaps.len() - 1);
}
