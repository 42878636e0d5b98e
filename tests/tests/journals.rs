//! The journal file under several writers, kills and failing calls: `examples/dealer` and `examples/swapfile` at once on one
//! folder. Whatever a program says is committed is there, and the journal is always a whole one that the engine accepts.

use std::fs;
use std::io::{Read, Write};
use std::os::unix::process::ExitStatusExt;
use std::path::{Path, PathBuf};
use std::process::{Child, Command, Stdio};
use std::thread::sleep;
use std::time::Duration;
use swap_tests::engine;
use swap_tests::random::{Random, MINE};

/// Bob takes Alice's coin a day after her: one block here.
const SHEET: [u8; 17] = [2, 2, 0, 1, 2, 255, 0, 1, 0, 0, 2, 2, 0, 0, 0, 1, 1];
const SETUP: [u8; 4] = [1, 0, 0, 0];

/// Alice's coin is locked and one block mined: from there on a block can be mined at any time, and Bob can send.
const BEGUN: [u8; 12] = [3, 0, 0, 2, 5, 2, 0, 2, 6, 2, 255, 2];
const SEND: [u8; 4] = [3, 1, 1, 1];
const TEXT: &str =
    "blocks per day: 1\nconduct: open\nstealth: no\nsheet:\nsignatures: 2\nsecrets: none
alice holds: 0\nbob holds: 1\ntransaction 0: opens a coin, pays nobody, needs 0
transaction 1: spends 0, pays bob, needs 1, locked for 1 day\njournal:
alice sends transaction 0 to the pool\ninclude transaction 0 in the block\nmine the block
bob sends transaction 1 to the pool, paying bob\n";

fn top() -> PathBuf {
    let top = Path::new(env!("CARGO_MANIFEST_DIR")).join("..");
    top.canonicalize().expect("the repository")
}

/// A program, `dealer` or `swapfile`; with `_faults` behind its name it obeys FAULT and CALLS.
fn built(name: &str) -> PathBuf {
    let program = top().join("target/c").join(name);
    let (folder, faults) = match name.strip_suffix("_faults") {
        Some(folder) => (folder, true),
        None => (name, false),
    };
    let mut build = Command::new(top().join("examples").join(folder).join("build"));
    build.arg(&program).arg("-O2");
    if faults {
        let calls = "openat fcntl fchown fchmod write fsync renameat close";
        let wrap = calls.split(' ').map(|call| format!("-Wl,--wrap={call}"));
        build.arg("examples/common/faults/faults.c").args(wrap);
    }
    assert!(build.status().expect("the build runs").success());
    program
}

/// A folder with the swap and a text that goes on with Bob's step.
fn swap(name: &str) -> PathBuf {
    let folder = Path::new(env!("CARGO_TARGET_TMPDIR")).join(name);
    let _ = fs::remove_dir_all(&folder);
    fs::create_dir_all(&folder).expect("a folder");
    for (name, bytes) in [("sheet.bin", &SHEET[..]), ("setup.bin", &SETUP)] {
        fs::write(folder.join(name), bytes).expect("a file");
    }
    fs::write(folder.join("swap.txt"), TEXT).expect("a file");
    reset(&folder);
    folder
}

/// The journal before, and what a killed program left is gone.
fn reset(folder: &Path) {
    unfinished(folder)
        .into_iter()
        .for_each(|path| fs::remove_file(path).expect("a file"));
    fs::write(folder.join("journal.bin"), BEGUN).expect("a file");
}

/// The files that have not got their names.
fn unfinished(folder: &Path) -> Vec<PathBuf> {
    let entries = fs::read_dir(folder).expect("a folder");
    let paths = entries.map(|entry| entry.expect("an entry").path());
    let is_hidden = |path: &PathBuf| path.file_name().unwrap().to_string_lossy().starts_with('.');
    paths.filter(is_hidden).collect()
}

/// The steps behind the first three; the engine accepts them all.
fn steps(folder: &Path) -> Vec<u8> {
    let journal = fs::read(folder.join("journal.bin")).expect("a journal");
    let count = (journal.len() / 4) as u32;
    assert_eq!(engine::run(&SHEET, &SETUP, &journal), count, "{journal:?}");
    assert_eq!(journal[..12], BEGUN);
    journal[12..].to_vec()
}

/// A program that runs.
struct Run {
    child: Child,
    said: String,
}

impl Run {
    fn start(mut command: Command) -> Run {
        let pipes = command.stdin(Stdio::piped()).stdout(Stdio::piped());
        let child = pipes
            .stderr(Stdio::piped())
            .spawn()
            .expect("the program runs");
        let said = String::new();
        Run { child, said }
    }

    /// A dealer who asks about a block to mine.
    fn dealer(program: &Path, folder: &Path, fault: &str) -> Run {
        let mut command = Command::new(program);
        command.arg(folder).args(MINE.map(|byte| byte.to_string()));
        Run::start(with(command, fault))
    }

    /// The text with Bob's step, which is to be encoded.
    fn encode(program: &Path, folder: &Path, fault: &str) -> Run {
        let mut command = Command::new(program);
        command
            .arg("encode")
            .arg(folder.join("swap.txt"))
            .arg(folder);
        Run::start(with(command, fault))
    }

    /// Waits until the dealer has asked.
    fn asked(mut self) -> Run {
        let output = self.child.stdout.as_mut().expect("an output");
        let mut byte = [0];
        while !self.said.ends_with("commit? ") && output.read(&mut byte).expect("an output") > 0 {
            self.said.push(byte[0] as char);
        }
        self
    }

    /// The client's yes, which a program that has ended does not hear.
    fn agree(mut self) -> Run {
        let _ = self
            .child
            .stdin
            .take()
            .expect("an input")
            .write_all(b"yes\n");
        self
    }

    /// Waits until it stops: false where it has ended before.
    fn stopped(&mut self) -> bool {
        loop {
            let status = fs::read_to_string(format!("/proc/{}/stat", self.child.id()));
            match status
                .expect("a process")
                .rsplit(") ")
                .next()
                .expect("a state")
                .as_bytes()[0]
            {
                b'T' => return true,
                b'Z' => return false,
                _ => sleep(Duration::from_micros(300)),
            }
        }
    }

    fn go_on(&self) {
        let mut kill = Command::new("kill");
        let sent = kill.args(["-CONT", &self.child.id().to_string()]).status();
        assert!(sent.expect("kill runs").success());
    }

    fn end(mut self) -> End {
        let output = self.child.wait_with_output().expect("the program ends");
        self.said += &String::from_utf8(output.stdout).expect("text");
        End {
            status: output.status.code(),
            killed: output.status.signal() == Some(9),
            said: self.said,
            told: String::from_utf8(output.stderr).expect("text"),
        }
    }
}

/// How a program ended.
#[derive(Debug)]
struct End {
    status: Option<i32>,
    killed: bool,
    said: String,
    told: String,
}

impl End {
    /// The number of the step that a dealer says is committed. Nothing else is a success.
    fn committed(&self) -> Option<usize> {
        let number = self.said.split_once("committed as step ");
        let number = number.map(|(_, rest)| rest.trim().parse().expect("a number"));
        assert!(
            self.killed || number.is_some() == (self.status == Some(0)),
            "{self:?}"
        );
        number
    }

    fn is_stale(&self) -> bool {
        self.status == Some(1) && self.said.contains("(SWAP_COUNT_STALE)")
    }

    /// Whether a text is encoded; where it is not, the folder's journal has a step that it has not.
    fn encoded(&self) -> bool {
        let refused = self
            .told
            .ends_with("journal.bin: step 4 is not the text's\n");
        assert_eq!(self.status, Some(i32::from(refused)), "{self:?}");
        !refused
    }
}

fn with(mut command: Command, fault: &str) -> Command {
    command.env_remove("CALLS").env("FAULT", fault);
    command
}

/// Both have asked before either says yes: one commits, and the other is late. Then without waiting for each other.
#[test]
fn two_dealers() {
    let program = built("dealer");
    let folder = swap("journals_dealers");
    let mut numbers = Vec::new();
    for round in 0..200 {
        let two = [(); 2].map(|()| Run::dealer(&program, &folder, ""));
        let two = if round % 2 == 0 {
            two.map(Run::asked)
        } else {
            two
        };
        let ends = two.map(Run::agree).map(Run::end);
        let committed: Vec<usize> = ends.iter().filter_map(End::committed).collect();
        let late = ends.iter().filter(|end| end.is_stale()).count();
        assert_eq!(committed.len() + late, 2, "{ends:?}");
        assert!(
            committed.len() == 1 || (round % 2 == 1 && !committed.is_empty()),
            "{ends:?}"
        );
        numbers.extend(committed);
        assert_eq!(steps(&folder), MINE.repeat(numbers.len()), "{ends:?}");
    }
    numbers.sort_unstable();
    assert_eq!(numbers, (4..4 + numbers.len()).collect::<Vec<_>>());
    println!(
        "{} steps of two dealers, each committed once",
        numbers.len()
    );
}

/// What is there after a dealer and a text that goes on without the dealer's step: one of them.
fn check_one(folder: &Path, dealer: &End, encoder: &End) -> bool {
    let committed = dealer.committed().is_some();
    assert!(committed || dealer.is_stale(), "{dealer:?}");
    assert_ne!(committed, encoder.encoded(), "{dealer:?} {encoder:?}");
    assert_eq!(
        steps(folder),
        if committed { &MINE } else { &SEND },
        "{dealer:?} {encoder:?}"
    );
    committed
}

#[test]
fn dealer_and_swapfile() {
    let (dealer, swapfile) = (built("dealer"), built("swapfile"));
    let folder = swap("journals_swapfile");
    let mut random = Random::new(81);
    let mut committed = 0;
    for _ in 0..200 {
        reset(&folder);
        let first = Run::dealer(&dealer, &folder, "").asked();
        let second = Run::encode(&swapfile, &folder, "");
        sleep(Duration::from_micros(random.below(2500) as u64));
        let ends = (first.agree().end(), second.end());
        committed += usize::from(check_one(&folder, &ends.0, &ends.1));
    }
    println!("200 rounds, {committed} with the dealer's step, the others with the text's");
}

/// A dealer who stops before any of the calls for files, while another dealer and swapfile try: nothing gets lost.
#[test]
fn stopped_at_each_call() {
    let (stopping, dealer, swapfile) = (built("dealer_faults"), built("dealer"), built("swapfile"));
    let folder = swap("journals_stopped");
    let (mut calls, mut waited) = (0, 0);
    for other in ["dealer", "swapfile"] {
        for call in 1.. {
            reset(&folder);
            let mut first = Run::dealer(&stopping, &folder, &format!("{call} stop")).agree();
            if !first.stopped() {
                break;
            }
            let mut second = match other {
                "dealer" => Run::dealer(&dealer, &folder, "").agree(),
                _ => Run::encode(&swapfile, &folder, ""),
            };
            sleep(Duration::from_millis(25));
            let waits = second.child.try_wait().expect("a process").is_none();
            first.go_on();
            let (first, second) = (first.end(), second.end());
            if other == "dealer" {
                let committed = [first.committed(), second.committed()];
                let count = committed.iter().flatten().count();
                assert_eq!(
                    steps(&folder),
                    MINE.repeat(count),
                    "{call}: {first:?} {second:?}"
                );
                assert!(count > 0, "{call}: {first:?} {second:?}");
            } else if first.committed().is_some() && second.encoded() {
                assert_eq!(steps(&folder), [SEND, MINE].concat(), "{call}"); // the dealer asked after the text was there
            } else {
                check_one(&folder, &first, &second);
            }
            calls += 1;
            waited += usize::from(waits);
        }
    }
    println!("stopped at {calls} calls, the other one waited at {waited}");
    assert!(calls > 30 && waited > 10, "{calls} {waited}");
}

/// Killed before any of the calls for files: the journal before or the journal after, and the next program goes on.
#[test]
fn killed_at_each_call() {
    let (dealer, swapfile) = (built("dealer_faults"), built("swapfile_faults"));
    let folder = swap("journals_killed");
    for (program, step) in [(&dealer, &MINE), (&swapfile, &SEND)] {
        let (mut before, mut after, mut left) = (0, 0, 0);
        for call in 1.. {
            reset(&folder);
            let fault = format!("{call} kill");
            let run = match program == &dealer {
                true => Run::dealer(program, &folder, &fault).agree(),
                false => Run::encode(program, &folder, &fault),
            };
            let end = run.end();
            if !end.killed {
                assert_eq!((end.status, &steps(&folder)[..]), (Some(0), &step[..]));
                break;
            }
            let there = steps(&folder);
            assert!(there.is_empty() || there == step, "{call}: {there:?}");
            assert!(!end.said.contains("committed") || there == step, "{call}");
            *if there.is_empty() {
                &mut before
            } else {
                &mut after
            } += 1;
            left += unfinished(&folder).len();
            let next = Run::dealer(&dealer, &folder, "").agree().end();
            assert!(next.committed().is_some(), "{call}: {next:?}");
            assert_eq!(steps(&folder), [&there[..], &MINE].concat(), "{call}");
        }
        println!(
            "killed at {before} calls before and {after} after the renaming; {left} files left"
        );
        assert!(
            before > 10 && after > 0 && left > 2,
            "{before} {after} {left}"
        );
    }
}

/// Two dealers, of whom one is killed at any time.
#[test]
fn killed_at_any_time() {
    let program = built("dealer");
    let folder = swap("journals_random");
    let mut random = Random::new(82);
    let (mut killed, mut unsaid) = (0, 0);
    for round in 0..200 {
        let before = steps(&folder).len() / 4;
        let two = [(); 2].map(|()| Run::dealer(&program, &folder, ""));
        let two = if round % 2 == 0 {
            two.map(Run::asked)
        } else {
            two
        };
        let [mut one, other] = two.map(Run::agree);
        let most = 1 << random.below(12);
        sleep(Duration::from_micros(random.below(most) as u64));
        one.child.kill().expect("a process");
        let (one, other) = (one.end(), other.end());
        let said = [one.committed(), other.committed()];
        let said = said.iter().flatten().count();
        let count = steps(&folder).len() / 4 - before;
        assert!(
            (said..=said + usize::from(one.killed)).contains(&count),
            "{one:?} {other:?}"
        );
        assert_eq!(steps(&folder), MINE.repeat(before + count));
        killed += usize::from(one.killed);
        unsaid += count - said;
    }
    println!("{killed} of 200 killed, {unsaid} of them between committing and saying so");
    assert!(killed > 20, "{killed}");
}

/// Each call for files fails once: an error that names the folder leaves all as before, and success is success.
#[test]
fn failing_calls() {
    let (dealer, swapfile) = (built("dealer_faults"), built("swapfile_faults"));
    let folder = swap("journals_failing");
    for (program, step) in [(&dealer, &MINE), (&swapfile, &SEND)] {
        let mut errors = 0;
        for call in 1..100 {
            reset(&folder);
            let fault = format!("{call} fail");
            let end = match program == &dealer {
                true => Run::dealer(program, &folder, &fault).agree().end(),
                false => Run::encode(program, &folder, &fault).end(),
            };
            let there = steps(&folder);
            assert!(unfinished(&folder).is_empty(), "{call}: {end:?}");
            if end.status == Some(0) {
                assert_eq!((&there[..], &*end.told), (&step[..], ""), "{call}: {end:?}");
                continue;
            }
            let named = end.told.contains(&format!(": {}", folder.display()));
            assert!(
                end.status == Some(1) && named && !end.said.contains("committed"),
                "{call}: {end:?}"
            );
            let only_folder = end.told.contains(&format!("{}: ", folder.display()));
            assert_eq!(there.is_empty(), !only_folder, "{call}: {end:?}");
            assert!(
                program != &dealer || only_folder == end.told.contains("the step is committed"),
                "{end:?}"
            );
            errors += 1;
        }
        assert!(errors > 10, "{errors}");
    }
}

/// The calls for files, a line each, of a program that is not disturbed.
fn calls(program: &Path, folder: &Path, run: impl Fn(Command) -> End) -> Vec<String> {
    let file = folder.join("calls");
    let mut command = Command::new(program);
    command.env_remove("FAULT").env("CALLS", &file);
    assert_eq!(run(command).status, Some(0));
    let text = fs::read_to_string(&file).expect("the calls");
    fs::remove_file(&file).expect("a file");
    text.lines().map(str::to_string).collect()
}

/// The places of a call among others.
fn places(calls: &[String], call: &str) -> Vec<usize> {
    let places = calls
        .iter()
        .enumerate()
        .filter(|(_, other)| other.starts_with(call));
    places.map(|(place, _)| place).collect()
}

/// The order that makes a commit last: locked before it is read; on the disk before it gets its name; the name on the disk before it is
/// said. A disk that loses power cannot be tried here.
#[test]
fn calls_in_order() {
    let folder = swap("journals_calls");
    let dealt = calls(&built("dealer_faults"), &folder, |mut command| {
        command.arg(&folder).args(MINE.map(|byte| byte.to_string()));
        Run::start(command).agree().end()
    });
    let other = folder.join("other");
    let encoded = calls(&built("swapfile_faults"), &folder, |mut command| {
        command
            .arg("encode")
            .arg(folder.join("swap.txt"))
            .arg(&other);
        Run::start(command).end()
    });
    for (calls, files) in [(dealt, 1), (encoded, 3)] {
        let (locks, writes) = (places(&calls, "lock file"), places(&calls, "write "));
        let (made, named) = (
            places(&calls, "openat .unfinished"),
            places(&calls, "renameat "),
        );
        let (synced, last) = (places(&calls, "fsync file"), places(&calls, "fsync folder"));
        let released = places(&calls, "close file");
        let counts = [locks.len(), synced.len(), named.len(), last.len()];
        assert_eq!(counts, [1, files, files, 1], "{calls:?}");
        let read_again = places(&calls, "openat journal.bin")
            .into_iter()
            .any(|at| at > locks[0]);
        assert!(files > 1 || read_again, "{calls:?}");
        assert!(locks[0] < made[0] && made[0] < writes[0], "{calls:?}");
        assert!(writes[writes.len() - 1] < synced[files - 1], "{calls:?}");
        assert!(synced[files - 1] < named[0], "{calls:?}");
        assert!(
            named[files - 1] < last[0] && last[0] < released[released.len() - 1],
            "{calls:?}"
        );
    }
}
