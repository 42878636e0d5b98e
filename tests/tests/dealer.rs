//! The dealer's words: its list of open steps and the nearest one that would pass, on random swaps, against the model's list and a plain
//! search; and that a step in its words is committed as its bytes.

use std::fs;
use std::path::Path;
use std::process::{Command, Output, Stdio};
use swap_tests::calendar::words::Names;
use swap_tests::model::{calls, setup};
use swap_tests::programs::{built, folder};
use swap_tests::random::{self, Case, Random, MINE};
use swap_tests::swapfile;

/// Where these tests have their folders.
const FOLDERS: &str = concat!(env!("CARGO_TARGET_TMPDIR"), "/dealer");

fn run(program: &Path, folder: &Path, words: &str) -> (String, String, i32) {
    let mut command = Command::new(program);
    command
        .arg(folder)
        .args(words.split_whitespace())
        .stdin(Stdio::null());
    let Output {
        status,
        stdout,
        stderr,
    } = command.output().expect("the dealer runs");
    let text = |bytes| String::from_utf8(bytes).expect("text");
    (text(stdout), text(stderr), status.code().expect("a status"))
}

/// A swap that is accepted, at times of three parties.
fn swap(random: &mut Random) -> Case {
    let game = match random.below(4) {
        0 => random::ring_game(random),
        _ => random::game(random),
    };
    let (sheet, setup, mut journal) = random::front(random, game, 40);
    journal.truncate(4 * calls::run(&sheet, &setup, &journal).accepted);
    (sheet, setup, journal)
}

fn names((sheet, setup, _): &Case) -> Names {
    let blocks = setup::read(sheet, setup).expect("a setup").blocks_per_day;
    Names::of(sheet, blocks as u16)
}

/// The open steps after an accepted journal, by the model, with the words of each.
fn open(case: &Case) -> Vec<([u8; 4], String)> {
    let (sheet, setup, journal) = case;
    let steps = calls::open_steps(sheet, setup, journal).expect("accepted");
    let names = names(case);
    let words = |step: &[u8; 4]| (*step, swapfile::step_words(&names, step));
    steps.iter().map(words).collect()
}

/// What the dealer prints of an accepted swap.
fn listed(case: &Case) -> String {
    let steps: Vec<&[u8]> = case.2.chunks(4).collect();
    let mined = steps.iter().filter(|&&step| step == MINE).count();
    let open = open(case);
    let mut text = format!(
        "after step {}, blocks mined: {mined}, open steps: {}\n",
        steps.len(),
        open.len()
    );
    let mut party = None;
    for (i, (step, words)) in open.iter().enumerate() {
        if party != Some(step[1]) {
            party = Some(step[1]);
            let name = ["alice", "bob", "the miner", "carol"][usize::from(step[1])];
            text += &format!("{name}:\n");
        }
        text += &format!("{:>4}  {words}\n", i + 1);
    }
    text
}

/// The distance of two texts, from the definition: the least over the last character put in, taken out, changed or kept.
fn distance(a: &[char], b: &[char]) -> usize {
    let mut table = vec![vec![0; b.len() + 1]; a.len() + 1];
    for i in 0..=a.len() {
        for j in 0..=b.len() {
            table[i][j] = match (i, j) {
                (0, _) | (_, 0) => i + j,
                _ => {
                    let changed = table[i - 1][j - 1] + usize::from(a[i - 1] != b[j - 1]);
                    changed.min(table[i - 1][j] + 1).min(table[i][j - 1] + 1)
                }
            };
        }
    }
    table[a.len()][b.len()]
}

fn plain(words: &str) -> Vec<char> {
    let words = words.to_lowercase().replace([',', ':'], " ");
    words
        .split_whitespace()
        .collect::<Vec<_>>()
        .join(" ")
        .chars()
        .collect()
}

/// The line that names the nearest open step: the first of the least distance.
fn nearest(case: &Case, words: &str) -> String {
    let open = open(case);
    let near = open
        .iter()
        .min_by_key(|(_, other)| distance(&plain(words), &plain(other)));
    let found = near.map_or("no step", |(_, other)| other);
    format!("nearest that would pass: {found}\n")
}

/// A word of the text is changed, so that it is no step's any more, or another one's.
fn misspelt(random: &mut Random, words: &str) -> String {
    let mut words: Vec<String> = words.split(' ').map(str::to_string).collect();
    let at = random.below(words.len());
    match random.below(3) {
        0 => words[at] += "x",
        1 => words[at] = words[at].chars().rev().collect(),
        _ => drop(words.remove(at)),
    }
    words.join(" ")
}

#[test]
fn the_list_and_the_nearest_step_are_the_models() {
    let program = built("dealer");
    let mut random = Random::new(43);
    let (mut refused, mut unread, mut passed) = (0, 0, 0);
    for round in 0..150 {
        let case = swap(&mut random);
        let folder = folder(FOLDERS, "nearest", &case);
        assert_eq!(
            run(&program, &folder, ""),
            (listed(&case), String::new(), 0),
            "{case:?}"
        );
        let open = open(&case);
        if open.is_empty() {
            continue;
        }
        let words = match case.2.is_empty() || random.percent(50) {
            true => {
                let at = random.below(open.len());
                misspelt(&mut random, &open[at].1)
            }
            false => {
                let at = 4 * random.below(case.2.len() / 4); // what was done once is mostly refused now
                swapfile::step_words(&names(&case), &case.2[at..at + 4])
            }
        };
        let (printed, said, status) = run(&program, &folder, &words);
        match status {
            2 => {
                unread += 1;
                assert!(
                    said.ends_with(&format!("dealer: {}", nearest(&case, &words))),
                    "{words}: {said}"
                );
                assert!(
                    printed.is_empty() && said.starts_with("dealer: step: "),
                    "{said}"
                );
            }
            1 => {
                refused += 1;
                let step = printed.split(": ").nth(1).expect("the step's words");
                assert!(printed.ends_with(&nearest(&case, step)), "{printed}");
            }
            _ => passed += 1,
        }
        assert_eq!(
            fs::read(folder.join("journal.bin")).expect("a journal"),
            case.2,
            "{round}"
        );
    }
    println!("{unread} unread, {refused} refused, {passed} passed");
    assert!(unread > 20 && refused > 20);
}

#[test]
fn a_step_in_words_is_committed_as_its_bytes() {
    let program = built("dealer");
    let mut random = Random::new(44);
    let mut kinds = [0; 8];
    for _ in 0..150 {
        let mut case = swap(&mut random);
        let folder = folder(FOLDERS, "commit", &case);
        let open = open(&case);
        if open.is_empty() || case.2.len() + 4 > 65_536 {
            continue;
        }
        let (step, words) = &open[random.below(open.len())];
        let (printed, said, status) = run(&program, &folder, &format!("{words} --commit"));
        let number = case.2.len() / 4;
        let expected = format!(
            "after step {number}: {words}: would pass\ncommitted as step {}\n",
            number + 1
        );
        assert_eq!(
            (printed, said, status),
            (expected, String::new(), 0),
            "{case:?}"
        );
        case.2.extend(step);
        assert_eq!(
            fs::read(folder.join("journal.bin")).expect("a journal"),
            case.2
        );
        kinds[usize::from(step[0])] += 1;
    }
    assert!(kinds[1..=3].iter().all(|&count| count > 0), "{kinds:?}");
}
