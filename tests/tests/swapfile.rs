//! The program of `examples/swapfile`: random swaps to text, which is the model's, and back to the same bytes; damaged
//! texts; files that are none; and the worked example of `docs/FORMATS.md`.

use std::collections::{BTreeMap, BTreeSet};
use std::fs;
use std::path::{Path, PathBuf};
use std::process::{Command, Output};
use swap_tests::engine;
use swap_tests::model::journal::Course;
use swap_tests::model::{setup, sheet};
use swap_tests::random::{self, Case, Manner, Random};
use swap_tests::samples::{self, Files};
use swap_tests::swapfile;

const SANITIZED: [&str; 3] = [
    "-g",
    "-fsanitize=address,undefined",
    "-fno-sanitize-recover=all",
];

fn top() -> PathBuf {
    let top = Path::new(env!("CARGO_MANIFEST_DIR")).join("..");
    top.canonicalize().expect("the repository")
}

/// The program under a name of its own, built with these flags.
fn built(name: &str, flags: &[&str]) -> PathBuf {
    let program = top().join("target/c").join(name);
    let mut build = Command::new(top().join("examples/swapfile/build"));
    let status = build.arg(&program).args(flags).status();
    assert!(status.expect("the build runs").success());
    program
}

/// An empty folder of this name.
fn folder(name: &str) -> PathBuf {
    let folder = Path::new(env!("CARGO_TARGET_TMPDIR")).join(name);
    let _ = fs::remove_dir_all(&folder);
    fs::create_dir_all(&folder).expect("a folder");
    folder
}

/// Runs the program; one that waits for ever is ended.
fn run(program: &Path, arguments: &[&Path]) -> Output {
    let mut command = Command::new("timeout");
    command.arg("60").arg(program).args(arguments);
    command.output().expect("the program runs")
}

fn encode(program: &Path, text: &Path, folder: &Path) -> Output {
    run(program, &[Path::new("encode"), text, folder])
}

fn decode(program: &Path, folder: &Path) -> Output {
    run(program, &[Path::new("decode"), folder])
}

fn files((sheet, setup, journal): &Case, side: Option<&str>) -> Files {
    let side = side.map(|side| format!("{side}\n").into_bytes());
    [
        Some(sheet.clone()),
        Some(setup.clone()),
        Some(journal.clone()),
        side,
        None,
    ]
}

/// The text that the program prints of a swap is the model's, and it encodes to the swap's files.
fn there_and_back(program: &Path, folder: &Path, case: &Case, side: Option<&str>) -> String {
    let (from, to, text) = (folder.join("a"), folder.join("b"), folder.join("swap.txt"));
    let _ = fs::remove_dir_all(&from);
    let _ = fs::remove_dir_all(&to);
    let files = files(case, side);
    samples::write(&from, &files).expect("a folder to write to");
    let printed = decode(program, &from);
    let printed = String::from_utf8(printed.stdout).expect("text");
    assert_eq!(printed, swapfile::text(case, side), "{case:?}");
    fs::write(&text, &printed).expect("a file to write to");
    let output = encode(program, &text, &to);
    assert!(output.status.success(), "{output:?} of {printed}");
    assert_eq!(samples::read(&to), files, "{printed}");
    assert_eq!(
        fs::read_dir(&to).expect("a folder").count(),
        files.iter().flatten().count() + 1 // the lock
    );
    assert_eq!(fs::read(to.join("journal.lock")).expect("a lock"), []);
    printed
}

/// A sheet and a setup; at times of three parties, or the SASwap sheet for another number of blocks, which has no names.
fn game(random: &mut Random) -> (Vec<u8>, Vec<u8>) {
    match random.below(10) {
        0 => (sheet::saswap(1), random::setup_of(random, 3, 0)),
        1 | 2 => random::ring_game(random),
        _ => random::game(random),
    }
}

/// A swap that the library accepts.
fn accepted(random: &mut Random, most: usize) -> Case {
    let (sheet, setup) = game(random);
    let read_sheet = sheet::read(&sheet).expect("a valid sheet");
    let read_setup = setup::read(&sheet, &setup).expect("a valid setup");
    let manner = Manner {
        wrong: 0,
        leap: 5,
        ..random::manner(random, most)
    };
    let mut course = Course::fresh(&read_sheet);
    for _ in 0..manner.length {
        random::more(random, &read_sheet, &read_setup, &mut course, &manner, 300);
    }
    let journal = course.accepted.concat();
    let count = (journal.len() / 4) as u32;
    assert_eq!(engine::run(&sheet, &setup, &journal), count);
    (sheet, setup, journal)
}

#[test]
fn random_swaps_there_and_back() {
    let program = built("swapfile", &["-O2"]);
    let folder = folder("swapfile_random");
    let mut random = Random::new(61);
    let mut kinds = BTreeMap::new();
    let (mut named, mut rings, mut steps) = (0, 0, 0);
    for _ in 0..900 {
        let case = accepted(&mut random, 60);
        let three = case.0[0] >= sheet::THREE;
        let sides = [None, Some("alice"), Some("bob"), Some("carol")];
        let side = random.pick(&sides[..if three { 4 } else { 3 }]);
        let text = there_and_back(&program, &folder, &case, side);
        rings += usize::from(three);
        named += usize::from(text.contains("\nsheet: saswap\n"));
        steps += case.2.len() / 4;
        for step in case.2.chunks(4) {
            *kinds.entry(step[0]).or_insert(0) += 1;
        }
    }
    println!(
        "{steps} steps of {kinds:?}, {named} swaps of 900 on the SASwap sheet, {rings} of three"
    );
    assert!(named > 200 && named < 700 && rings > 100, "{named} {rings}");
    assert!((1..=7).all(|kind| kinds[&kind] > 100), "{kinds:?}");
}

/// The samples, the widest sheet, and the longest journal: 10,000 blocks.
#[test]
fn stored_and_longest() {
    let program = built("swapfile", &["-O2"]);
    let folder = folder("swapfile_stored");
    let mut wide = vec![32, 8, 255, 255, 255];
    wide.extend([255, 3, 255, 1].repeat(32));
    wide.extend([1, 255].repeat(32));
    there_and_back(&program, &folder, &(wide, vec![232, 3, 0, 1], vec![]), None);
    let mut ring = vec![sheet::THREE + 32, 8, 255, 255, 255, 255];
    ring.extend([255, 7, 255, 1].repeat(32));
    ring.extend([1, 255].repeat(32));
    there_and_back(&program, &folder, &(ring, vec![232, 3, 0, 1], vec![]), None);
    let [sheet, setup, journal, ..] = samples::revoked().map(Option::unwrap_or_default);
    let blocks = random::MINE.repeat(10_000 - 444);
    let long = (sheet, setup, [journal, blocks].concat());
    there_and_back(&program, &folder, &long, None);
    for (name, files) in samples::samples() {
        if !name.starts_with("refused/") {
            let side = files[3]
                .clone()
                .map(|side| String::from_utf8(side).expect("text"));
            let [sheet, setup, journal, ..] = files.map(Option::unwrap_or_default);
            let case = (sheet, setup, journal);
            there_and_back(&program, &folder, &case, side.as_deref().map(str::trim));
        }
    }
}

/// Damages a text: a word of it, a line, or any bytes.
fn damaged(random: &mut Random, text: &str) -> Vec<u8> {
    let mut lines: Vec<Vec<&str>> = text.lines().map(|line| line.split(' ').collect()).collect();
    let at = random.below(lines.len());
    let other = random.below(lines.len());
    match random.below(6) {
        0 => drop(lines.remove(at)),
        1 => lines.swap(at, other),
        2 => lines.insert(at, lines[other].clone()),
        3 | 4 => {
            let words = lines[other].clone();
            let place = random.below(lines[at].len());
            lines[at][place] = random.pick(&words);
        }
        _ => {
            let mut bytes = text.as_bytes().to_vec();
            random::damage(random, &mut bytes);
            return bytes;
        }
    }
    let lines: Vec<String> = lines.iter().map(|words| words.join(" ")).collect();
    (lines.join("\n") + "\n").into_bytes()
}

/// A damaged text is refused with its file and a line of it, and nothing is written; or it says a swap that is accepted.
#[test]
fn damaged_texts() {
    let program = built("swapfile_sanitized_test", &SANITIZED);
    let folder = folder("swapfile_damaged");
    let (text, to) = (folder.join("swap.txt"), folder.join("to"));
    let mut random = Random::new(62);
    let (mut refused, mut reasons) = (0, BTreeSet::new());
    for _ in 0..300 {
        let sound = swapfile::text(&accepted(&mut random, 20), None);
        let bytes = damaged(&mut random, &sound);
        fs::write(&text, &bytes).expect("a file to write to");
        let output = encode(&program, &text, &to);
        let message = String::from_utf8_lossy(&output.stderr).into_owned();
        if output.status.code() == Some(0) {
            let [sheet, setup, journal, ..] = samples::read(&to).map(Option::unwrap_or_default);
            let count = (journal.len() / 4) as u32;
            assert_eq!(engine::run(&sheet, &setup, &journal), count);
            fs::remove_dir_all(&to).expect("the folder is removed");
            continue;
        }
        assert_eq!(output.status.code(), Some(1), "{message}");
        assert!(!to.exists(), "{message}");
        let place = format!("swapfile: {}:", text.display());
        let rest = message.strip_prefix(&place).expect("file and line");
        let (line, reason) = rest.split_once(": ").expect("a reason");
        let lines = bytes.split(|&byte| byte == b'\n').count();
        assert!(
            (1..=lines).contains(&line.parse().expect("a line")),
            "{message}"
        );
        assert_eq!(message.matches('\n').count(), 1, "{message}");
        let words = reason.split(' ').filter(|word| !word.starts_with('\''));
        reasons.insert(words.take(3).collect::<Vec<_>>().join(" "));
        refused += 1;
    }
    println!("{refused} texts of 300 refused: {reasons:?}");
    assert!(refused > 100 && refused < 295 && reasons.len() > 8);
}

/// Folders that the engine refuses have no text.
#[test]
fn refused_folders() {
    let program = built("swapfile", &["-O2"]);
    let folder = folder("swapfile_refused");
    let mut random = Random::new(63);
    for number in (1..=24).filter(|&number| number != 23).chain([32]) {
        let led = |random: &mut Random| match number {
            32 => random::led_ring_case(random, 60, number),
            _ => random::led_case(random, 60, number),
        };
        let mut tries = (0..10_000).map(|_| led(&mut random));
        let refusal = |case: &Case| engine::run(&case.0, &case.1, &case.2) >> 16;
        let case = tries
            .find(|case| refusal(case) == number)
            .expect("such a swap");
        samples::write(&folder, &files(&case, None)).expect("a folder to write to");
        let output = decode(&program, &folder);
        assert_eq!(output.status.code(), Some(1), "{number}");
        assert!(output.stdout.is_empty(), "{number}");
        let message = String::from_utf8(output.stderr).expect("text");
        let file = match number {
            1..=8 => "sheet.bin: ",
            9 | 10 | 32 => "setup.bin: ",
            _ => "journal.bin: ",
        };
        assert!(
            message.contains(file) && message.contains("refused: "),
            "{message}"
        );
        let (name, _) = swap_tests::calendar::words::refusal(number);
        assert!(message.ends_with(&format!("(SWAP_{name})\n")), "{message}");
    }
}

/// What `new` writes: the model's SASwap sheet, careful, without stealth; the engine accepts it.
#[test]
fn new_swaps() {
    let program = built("swapfile", &["-O2"]);
    let folder = folder("swapfile_new");
    for blocks in (1..=1000u16).filter(|n| *n < 6 || n % 97 == 0 || *n > 998) {
        let swap = folder.join(blocks.to_string());
        let words = ["new", "saswap", &blocks.to_string()].map(PathBuf::from);
        let mut arguments: Vec<&Path> = words.iter().map(PathBuf::as_path).collect();
        arguments.push(&swap);
        assert!(run(&program, &arguments).status.success());
        let [low, high] = blocks.to_le_bytes();
        let case = (sheet::saswap(blocks), vec![low, high, 2, 0], vec![]);
        assert_eq!(samples::read(&swap), files(&case, None));
        assert_eq!(engine::run(&case.0, &case.1, &case.2), 0);
        assert_eq!(run(&program, &arguments).status.code(), Some(1));
    }
}

/// The fenced blocks of the document, by the words after the fence.
fn fenced(document: &str) -> BTreeMap<String, String> {
    let mut blocks = BTreeMap::new();
    let mut lines = document.lines();
    while let Some(line) = lines.next() {
        if let Some(name) = line.strip_prefix("```") {
            let body: Vec<&str> = lines.by_ref().take_while(|line| *line != "```").collect();
            let text: String = body.iter().map(|line| format!("{line}\n")).collect();
            assert!(
                blocks.insert(name.to_string(), text).is_none(),
                "{name} twice"
            );
        }
    }
    blocks
}

/// Bytes in decimal, so many on a line.
fn decimal(bytes: &[u8], width: usize) -> String {
    let line = |bytes: &[u8]| {
        let numbers: Vec<String> = bytes.iter().map(u8::to_string).collect();
        numbers.join(" ") + "\n"
    };
    bytes.chunks(width).map(line).collect()
}

/// What a call writes to a buffer that is long enough, of so many bytes; the call answers this count.
fn written(length: usize, count: u32, call: impl Fn(&mut [u8]) -> u32) -> Vec<u8> {
    let mut buffer = vec![0; length];
    assert_eq!(call(&mut buffer), count);
    buffer
}

/// The worked example: the text in the document gives the bytes in it, and these the answers.
#[test]
fn worked_example() {
    let document = fs::read_to_string(top().join("docs/FORMATS.md")).expect("the document");
    let shown = fenced(&document);
    let folder = folder("swapfile_example");
    let text = folder.join("swap.txt");
    fs::write(&text, &shown["text example"]).expect("a file to write to");
    let program = built("swapfile", &["-O2"]);
    let output = encode(&program, &text, &folder);
    assert!(output.status.success(), "{output:?}");
    let [sheet, setup, journal, ..] = samples::read(&folder).map(Option::unwrap_or_default);
    let half = &journal[..12];
    let bundle = [
        &[2][..],
        &setup,
        &setup,
        &[24, 0, 0, 0, 12, 0, 0, 0],
        &journal,
        half,
    ]
    .concat();
    let earliest = written(8, 2, |out| {
        engine::earliest(&sheet, &setup, 2, &[1, 0, 0, 0], out)
    });
    assert_eq!(engine::blocks(&sheet, &setup, &earliest), 0);
    let list = written(24, 6, |out| engine::list(&sheet, &setup, half, out));
    let sheet_bytes = [
        decimal(&sheet[..5], 5),
        decimal(&sheet[5..13], 4),
        decimal(&sheet[13..], 2),
    ];
    let page = written(219, 0, |out| engine::page(&sheet, &setup, &journal, out));
    let expected = [
        ("bytes sheet.bin", sheet_bytes.concat()),
        ("bytes setup.bin", decimal(&setup, 4)),
        ("bytes journal.bin", decimal(&journal, 4)),
        ("bytes list", decimal(&list, 4)),
        (
            "bytes report",
            decimal(
                &written(36, 0, |out| engine::report(&sheet, &setup, &journal, out)),
                18,
            ),
        ),
        (
            "bytes outage",
            decimal(
                &written(20, 0, |out| engine::outage(&sheet, &setup, half, 3, out)),
                10,
            ),
        ),
        (
            "bytes slack",
            decimal(
                &written(16, 0, |out| engine::slack(&sheet, &setup, half, out)),
                8,
            ),
        ),
        (
            "bytes timelocks",
            decimal(
                &written(16, 0, |out| engine::timelocks(&sheet, &setup, 800_000, out)),
                8,
            ),
        ),
        ("text page", String::from_utf8(page).expect("text")),
        (
            "bytes bundle",
            [decimal(&bundle[..1], 1), decimal(&bundle[1..], 4)].concat(),
        ),
        (
            "bytes desk",
            decimal(&written(16, 0, |out| engine::desk(&sheet, &bundle, out)), 8),
        ),
        ("bytes earliest", decimal(&earliest, 4)),
    ];
    for (name, body) in expected {
        assert_eq!(shown.get(name), Some(&body), "{name}:\n{body}");
    }
}

/// The SASwap sheet in the document is the model's, above 2 blocks per day.
#[test]
fn saswap_in_the_document() {
    let document = fs::read_to_string(top().join("docs/FORMATS.md")).expect("the document");
    let transactions = &fenced(&document)["text saswap"];
    let setup = "blocks per day: 144\nconduct: careful\nstealth: no\nsheet:\n";
    let head = "signatures: 4\nsecrets: 2 3\nalice holds: 0 2\nbob holds: 1 3\n";
    let folder = folder("swapfile_saswap");
    let text = folder.join("swap.txt");
    fs::write(&text, format!("{setup}{head}{transactions}journal:\n")).expect("a file to write to");
    let output = encode(&built("swapfile", &["-O2"]), &text, &folder);
    assert!(output.status.success(), "{output:?}");
    assert_eq!(samples::read(&folder)[0], Some(sheet::saswap(144)));
}

/// The ring of three in the document is the sample's.
#[test]
fn ring_in_the_document() {
    let document = fs::read_to_string(top().join("docs/FORMATS.md")).expect("the document");
    let ring = &fenced(&document)["text ring"];
    let setup = "blocks per day: 144\nconduct: open\nstealth: no\nside: carol\nsheet:\n";
    let folder = folder("swapfile_ring");
    let text = folder.join("swap.txt");
    fs::write(&text, format!("{setup}{ring}journal:\n")).expect("a file to write to");
    let output = encode(&built("swapfile", &["-O2"]), &text, &folder);
    assert!(output.status.success(), "{output:?}");
    assert_eq!(samples::read(&folder)[0], Some(samples::RING.to_vec()));
}
