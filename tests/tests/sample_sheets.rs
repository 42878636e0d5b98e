//! The sample sheets of `examples/samples`: each text encodes to the stored bytes, the engine accepts the journal whole, the
//! calendar shows what the README has, and the swap can end as its design says.

use std::collections::BTreeMap;
use std::fs;
use std::path::{Path, PathBuf};
use std::process::Command;
use std::sync::atomic::{AtomicUsize, Ordering};
use std::sync::{Mutex, PoisonError};
use swap_tests::calendar::{self, Question};
use swap_tests::model::calls::{self, Outcome};
use swap_tests::model::{report, ALICE, BOB};
use swap_tests::samples::{self, Files};
use swap_tests::{engine, swapfile};

fn top() -> PathBuf {
    let top = Path::new(env!("CARGO_MANIFEST_DIR")).join("..");
    top.canonicalize().expect("the repository")
}

fn all() -> PathBuf {
    top().join("examples/samples")
}

/// The names of the samples, sorted.
fn names() -> Vec<String> {
    let entries = fs::read_dir(all()).expect("the samples");
    let entries = entries.map(|entry| entry.expect("an entry").path());
    let folders = entries.filter(|path| path.is_dir());
    let name = |path: PathBuf| path.file_name().unwrap().to_str().unwrap().to_string();
    let mut names: Vec<String> = folders.map(name).collect();
    names.sort();
    names
}

/// What a program at the top of the repository prints, both outputs together, and its exit status. One runs at a time: a second
/// would say that it waits for the first one's build.
fn run(program: &str, arguments: &[&Path]) -> (String, i32) {
    static ONE: Mutex<()> = Mutex::new(());
    let _one = ONE.lock().unwrap_or_else(PoisonError::into_inner);
    let output = Command::new(top().join(program))
        .args(arguments)
        .output()
        .expect("the program runs");
    let text = [output.stdout, output.stderr].concat();
    let status = output.status.code().expect("an exit status");
    (String::from_utf8(text).expect("text"), status)
}

/// The files that swapfile makes of a text, or its message. Each text has a folder of its own.
fn encoded(name: &str, text: &str) -> Result<Files, String> {
    static TEXTS: AtomicUsize = AtomicUsize::new(0);
    let number = TEXTS.fetch_add(1, Ordering::Relaxed);
    let folder = Path::new(env!("CARGO_TARGET_TMPDIR")).join(format!("sample_{name}_{number}"));
    let _ = fs::remove_dir_all(&folder);
    fs::create_dir_all(&folder).expect("a folder");
    let file = folder.join("swap.txt");
    fs::write(&file, text).expect("a file");
    match run("swapfile", &[Path::new("encode"), &file, &folder]) {
        (_, 0) => Ok(samples::read(&folder)),
        (message, _) => Err(message),
    }
}

fn text_of(name: &str) -> String {
    fs::read_to_string(all().join(name).join("swap.txt")).expect("a text")
}

/// The swap after its journal; the engine accepts that whole, and so does the model.
fn outcome(files: &Files) -> Outcome {
    let [Some(sheet), Some(setup), Some(journal), None, None] = files else {
        panic!("three files")
    };
    let outcome = calls::outcome(sheet, setup, journal).expect("a sound swap");
    let steps = (journal.len() / 4) as u32;
    assert_eq!(
        (outcome.refusal, engine::run(sheet, setup, journal)),
        (0, steps)
    );
    outcome
}

#[test]
fn texts_are_the_stored_bytes() {
    let overview = fs::read_to_string(all().join("README.md")).expect("a README");
    let names = names();
    assert_eq!(names, ["bitsnark", "blink", "htlc"]);
    for name in names {
        let stored = samples::read(&all().join(&name));
        assert_eq!(
            encoded(&name, &text_of(&name)),
            Ok(stored.clone()),
            "{name}"
        );
        assert!(outcome(&stored).course.position.mined > 0);
        let [Some(sheet), Some(setup), Some(journal), ..] = stored else {
            panic!("three files")
        };
        let (text, status) = run("swapfile", &[Path::new("decode"), &all().join(&name)]);
        assert_eq!(
            (text, status),
            (swapfile::text(&(sheet, setup, journal), None), 0)
        );
        assert!(overview.contains(&format!("| `{name}` |")), "{name}");
    }
}

/// One by one as the README shows it, and all together.
#[test]
fn calendar_shows_them() {
    let question = Question::default();
    let swap = |name: String| {
        let files = samples::read(&all().join(&name));
        (name, files)
    };
    let swaps: Vec<(String, Files)> = names().into_iter().map(swap).collect();
    for swap in &swaps {
        let folder = all().join(&swap.0);
        let (text, totals) = calendar::text(std::slice::from_ref(swap), &question);
        assert_eq!(run("calendar", &[&folder]), (text.clone(), totals.status()));
        let readme = fs::read_to_string(folder.join("README.md")).expect("a README");
        assert!(readme.contains(&format!("```\n{text}```\n")), "{}", swap.0);
    }
    let (text, totals) = calendar::text(&swaps, &question);
    assert_eq!(run("calendar", &[&all()]), (text, totals.status()));
}

/// Who has each coin after some more lines of the text.
fn payouts(name: &str, lines: &str) -> BTreeMap<u8, u8> {
    let files = encoded(name, &(text_of(name) + lines)).expect("steps that pass");
    let outcome = outcome(&files);
    let position = &outcome.course.position;
    report::payouts(&report::holders_from_position(&outcome.sheet, position))
}

/// The line by which a transaction is sent, and those that confirm it.
fn confirmed(party: &str, t: u8) -> String {
    format!(
        "{party} sends transaction {t} to the pool, paying {party}\n\
         include transaction {t} in the block\nmine the block\n"
    )
}

#[test]
fn hash_and_time_locks() {
    let claimed = payouts("htlc", &confirmed("bob", 2));
    assert_eq!(claimed, BTreeMap::from([(0, BOB), (1, ALICE)]));
    let late = format!("mine 138 blocks\n{}", confirmed("bob", 2));
    let message = encoded("htlc", &(text_of("htlc") + &late)).expect_err("a deadline");
    assert!(message.contains("the deadline is reached"), "{message}");
    let lost = format!("mine 138 blocks\n{}", confirmed("alice", 3));
    assert_eq!(
        payouts("htlc", &lost),
        BTreeMap::from([(0, ALICE), (1, ALICE)])
    );
}

/// The secret is Bob's only once Alice has claimed.
#[test]
fn preimage_before_the_claim() {
    let text = text_of("htlc");
    let (before, _) = text
        .split_once("alice sends transaction 4")
        .expect("the claim");
    let early = format!("{before}{}", confirmed("bob", 2));
    let message = encoded("htlc", &early).expect_err("no preimage");
    assert!(message.contains("signatures are missing"), "{message}");
}

#[test]
fn escrows_of_blink() {
    let keys = confirmed("bob", 6) + &confirmed("alice", 3);
    let preimage = confirmed("bob", 5) + &confirmed("alice", 2);
    for lines in [keys, preimage] {
        assert_eq!(
            payouts("blink", &lines),
            BTreeMap::from([(0, ALICE), (1, BOB)])
        );
    }
    let waited = format!("mine 126 blocks\n{}", confirmed("alice", 7));
    assert_eq!(payouts("blink", &waited), BTreeMap::from([(1, ALICE)]));
    let both = format!("{waited}mine 142 blocks\n{}", confirmed("bob", 4));
    assert_eq!(
        payouts("blink", &both),
        BTreeMap::from([(0, BOB), (1, ALICE)])
    );
}

/// Without the messages neither the key paths nor Alice's hash lock can be spent, Bob's can.
#[test]
fn escrows_before_the_messages() {
    let text = text_of("blink");
    let (before, _) = text
        .split_once("bob gives signature 2")
        .expect("the messages");
    for (party, t) in [("alice", 2), ("alice", 3), ("bob", 6)] {
        let early = format!("{before}{}", confirmed(party, t));
        let message = encoded("blink", &early).expect_err("signatures");
        assert!(message.contains("signatures are missing"), "{message}");
    }
    let shown = format!("{before}{}{}", confirmed("bob", 5), confirmed("alice", 2));
    let files = encoded("blink", &shown).expect("steps that pass");
    assert_eq!(outcome(&files).course.position.mined, 12);
}

#[test]
fn answers_of_bitsnark() {
    let lost = format!("mine 115 blocks\n{}", confirmed("alice", 5));
    assert_eq!(payouts("bitsnark", &lost), BTreeMap::from([(0, ALICE)]));
    let contract =
        |party: &str, t: u8| confirmed(party, t).replace(&format!(", paying {party}"), "");
    let argued = contract("bob", 6) + &contract("alice", 8);
    let refuted = format!("{}{argued}{}", text_of("bitsnark"), confirmed("bob", 10));
    let message = encoded("bitsnark", &refuted).expect_err("a valid proof");
    assert!(message.contains("signatures are missing"), "{message}");
    let invalid = refuted.replace("bob holds: 1", "bob holds: 1 2");
    let outcome = outcome(&encoded("bitsnark", &invalid).expect("steps that pass"));
    let holders = report::holders_from_position(&outcome.sheet, &outcome.course.position);
    assert_eq!(report::payouts(&holders), BTreeMap::from([(0, BOB)]));
}
