//! The program of `examples/swap` on random swaps: what its commands print is what the model answers, in words; and what swapfile prints of
//! a refused swap has its steps.

use std::fs;
use std::path::Path;
use std::process::Command;
use swap_tests::calendar::words::{self, Names};
use swap_tests::model::heights::NEVER;
use swap_tests::model::{
    block_list, calls, ending, setup, sheet, shrink, step, timelocks, CONTRACT,
};
use swap_tests::programs::{built, folder};
use swap_tests::random::{self, Case, Random};
use swap_tests::slack::row::Row;
use swap_tests::swapfile;

/// Where these tests have their folders.
const FOLDERS: &str = concat!(env!("CARGO_TARGET_TMPDIR"), "/swap_program");

/// What a command prints, standard error last, and its status.
fn run(program: &Path, words: &[&str]) -> (String, i32) {
    let output = Command::new(program).args(words).output();
    let output = output.expect("the program runs");
    let text = [output.stdout, output.stderr].concat();
    let text = String::from_utf8(text).expect("text");
    (text, output.status.code().expect("a status"))
}

fn game(random: &mut Random) -> (Vec<u8>, Vec<u8>) {
    match random.below(4) {
        0 => random::ring_game(random),
        _ => random::game(random),
    }
}

fn swap(random: &mut Random) -> Case {
    let game = game(random);
    let (sheet, setup, mut journal) = random::front(random, game, 40);
    journal.truncate(4 * calls::run(&sheet, &setup, &journal).accepted);
    (sheet, setup, journal)
}

fn names((sheet, setup, _): &Case) -> Names {
    let read = setup::read(sheet, setup).expect("a setup");
    Names::of(sheet, read.blocks_per_day as u16)
}

fn number(bytes: &[u8]) -> u32 {
    u32::from_le_bytes(bytes.try_into().expect("four bytes"))
}

/// The lines of a table below its header, each as its words.
fn table(text: &str) -> Vec<String> {
    let line = |line: &str| line.split_whitespace().collect::<Vec<_>>().join(" ");
    text.lines().skip(1).map(line).collect()
}

fn status(status: u8) -> String {
    let words = ["pool", "block", "confirmed", "dead"];
    let set = (0..4).filter(|bit| status >> bit & 1 == 1);
    let set: Vec<&str> = set.map(|bit| words[bit]).collect();
    match set.is_empty() {
        true => "-".to_string(),
        false => set.join("+"),
    }
}

/// The report's rows, by the model.
fn report(case: &Case, base: u32) -> Vec<String> {
    let names = names(case);
    let bytes = calls::report_bytes(&case.0, &case.1, &case.2).expect("accepted");
    let row = |(t, row): (usize, &[u8])| {
        let payee = match row[1] {
            255 => "-",
            payee => words::destination_name(payee),
        };
        let block = match number(&row[2..6]) {
            0 => "-".to_string(),
            block => words::height(base, block),
        };
        let lock = words::height(base, number(&row[6..10]));
        let deadline = words::height(base, number(&row[10..14]));
        let open = words::height(0, number(&row[14..18]));
        let (name, status) = (names.transaction(t as u8), status(row[0]));
        format!("{t} {name} {status} {payee} {block} {lock} {deadline} {open}")
    };
    bytes.chunks(18).enumerate().map(row).collect()
}

/// The outage's rows, by the model.
fn outage(case: &Case, blocks: u32) -> Vec<String> {
    let names = names(case);
    let read = sheet::read(&case.0).expect("a sheet");
    let bytes = calls::outage_bytes(&case.0, &case.1, &case.2, blocks).expect("accepted");
    let size = bytes.len() / read.transactions.len();
    let row = |(t, row): (usize, &[u8])| {
        let verdict = match row[0] {
            0 => "not reached",
            1 => "settled",
            2 => "safe",
            4 => "reached",
            8 => "passed",
            _ => "passed, reached",
        };
        let pays = words::payees_name(&read, row[1]);
        let block = words::height(0, number(&row[2..6]));
        let deadline = words::height(0, number(&row[6..10]));
        let name = names.transaction(t as u8);
        format!("{t} {name} {verdict} {pays} {block} {deadline}")
    };
    bytes.chunks(size).enumerate().map(row).collect()
}

/// The slack of each party in words, by the model.
fn slack(case: &Case) -> Vec<String> {
    let names = names(case);
    let outcome = calls::outcome(&case.0, &case.1, &case.2).expect("accepted");
    let (sheet, setup, position) = (&outcome.sheet, &outcome.setup, &outcome.course.position);
    let words = |&party: &u8| {
        let row = Row::of(sheet, setup, position, party);
        let counted = |(t, destination): (u8, u8)| match destination {
            CONTRACT => names.transaction(t),
            payee => format!(
                "{}, paying {}",
                names.transaction(t),
                words::party_name(payee)
            ),
        };
        let said = match (row.blocks, row.counted, row.due) {
            (NEVER, ..) => "no payout is secured".to_string(),
            (_, None, _) if position.confirmed.values().any(|c| c.destination == party) => {
                "paid".to_string()
            }
            (_, None, _) => "paid by the block being filled".to_string(),
            (_, Some((t, to)), true) => {
                let hands_in = step::refusal(sheet, setup, position, &[4, party, t, to]) == 0;
                let verb = if hands_in { "hand in" } else { "send" };
                format!("before the next block {verb} {}", counted((t, to)))
            }
            (1, Some(on), false) => format!("can be off for 1 block, counting on {}", counted(on)),
            (blocks, Some(on), false) => {
                format!(
                    "can be off for {blocks} blocks, counting on {}",
                    counted(on)
                )
            }
        };
        format!("{}: {said}", words::party_name(party))
    };
    sheet.parties.iter().map(words).collect()
}

fn locks(case: &Case, base: u32) -> Result<Vec<String>, u32> {
    let names = names(case);
    let all = timelocks::all_fields(&case.0, &case.1, base)?;
    let row = |(t, fields): (usize, &timelocks::Fields)| {
        let (lock, sequence) = (fields.lock_time, fields.sequence);
        let name = names.transaction(t as u8);
        format!("{t} {name} {lock} {sequence} {sequence:08X}")
    };
    Ok(all.iter().enumerate().map(row).collect())
}

#[test]
fn tables_are_the_models() {
    let program = built("swap");
    let mut random = Random::new(45);
    let mut refused = 0;
    for _ in 0..120 {
        let case = swap(&mut random);
        let folder = folder(FOLDERS, "tables", &case);
        let folder = folder.to_str().expect("text");
        let (base, blocks) = (random.below(900_000) as u32, random.below(400) as u32);
        let (text, status) = run(&program, &["report", folder, &base.to_string()]);
        assert_eq!((table(&text), status), (report(&case, base), 0), "{case:?}");
        let (text, status) = run(&program, &["outage", folder, &blocks.to_string()]);
        assert_eq!(
            (table(&text), status),
            (outage(&case, blocks), 0),
            "{case:?}"
        );
        let (text, status) = run(&program, &["slack", folder]);
        let lines: Vec<&str> = text.lines().collect();
        assert_eq!(
            (lines, status),
            (slack(&case).iter().map(String::as_str).collect(), 0),
            "{case:?}"
        );
        let base = base + random.pick(&[0, 499_000_000]);
        let (text, status) = run(&program, &["timelocks", folder, &base.to_string()]);
        match locks(&case, base) {
            Ok(rows) => assert_eq!((table(&text), status), (rows, 0), "{case:?}"),
            Err(number) => {
                refused += 1;
                assert!((26..=27).contains(&number) && status == 1, "{text}");
                assert!(text.contains("sheet.bin: refused: "), "{text}");
            }
        }
    }
    assert!(refused > 0);
}

#[test]
fn earliest_lists_are_the_models_and_pass_blocks() {
    let program = built("swap");
    let mut random = Random::new(46);
    let (mut written, mut impossible, mut judged) = (0, 0, [0; 2]);
    for _ in 0..120 {
        let (sheet, setup) = game(&mut random);
        let case = (sheet, setup, Vec::new());
        let read = sheet::read(&case.0).expect("a sheet");
        let (folder, names) = (folder(FOLDERS, "lists", &case), names(&case));
        let path = folder.to_str().expect("text");
        let line = |entry: &swap_tests::model::ledger::Entry| {
            let paying = match entry.destination {
                CONTRACT => String::new(),
                payee => format!(", paying {}", words::party_name(payee).to_lowercase()),
            };
            let name = names.transaction(entry.transaction);
            format!("block {}: {name}{paying}\n", entry.block)
        };
        let (mask, dests) = random::ending(&mut random, &read);
        let mut asked = vec!["earliest".to_string(), path.to_string()];
        let set = (0..32_u8).filter(|t| mask >> t & 1 == 1);
        for (t, dest) in set.zip(dests.chunks(4)) {
            let party = words::party_name(dest[0]).to_lowercase();
            asked.push(format!("{} paying {party}", names.transaction(t)));
        }
        let asked: Vec<&str> = asked.iter().map(String::as_str).collect();
        let (text, status) = run(&program, &asked);
        match ending::list(&case.0, &case.1, mask, &dests) {
            Ok(entries) => {
                let expected: String = entries.iter().map(line).collect();
                assert_eq!((text, status), (expected, 0), "{case:?} {asked:?}");
                written += usize::from(!entries.is_empty());
            }
            Err(number) => {
                assert!(number == 34 && status == 1, "{text}");
                assert!(text.contains("(SWAP_ENDING_IMPOSSIBLE)"), "{text}");
                impossible += 1;
            }
        }
        let blocks = setup::read(&case.0, &case.1)
            .expect("a setup")
            .blocks_per_day;
        let entries = random::entries(&mut random, &read, blocks);
        let list = folder.join("list");
        let text: String = entries.iter().map(line).collect();
        fs::write(&list, &text).expect("a file");
        let (said, status) = run(&program, &["blocks", path, list.to_str().expect("text")]);
        let refusal = block_list::check(&case.0, &case.1, &block_list::bytes(&entries));
        assert_eq!(
            status,
            i32::from(refusal != 0),
            "{refusal}: {said} of {text}"
        );
        judged[usize::from(refusal != 0)] += 1;
    }
    println!("{written} lists, {impossible} impossible, {judged:?} taken and refused");
    assert!(written > 20 && impossible > 5 && judged.iter().all(|&count| count > 20));
}

/// A swap with a refused step.
fn refused(random: &mut Random) -> Case {
    loop {
        let game = game(random);
        let case = random::front(random, game, 40);
        let accepted = 4 * calls::run(&case.0, &case.1, &case.2).accepted;
        if accepted < case.2.len() && case.2.len() <= 4096 {
            return case;
        }
    }
}

/// The lines of steps that swap and swapfile print, without comments, as single steps.
fn steps(text: &str) -> Vec<String> {
    let mut steps = Vec::new();
    for line in text.lines() {
        let line = line.split(" # ").next().expect("a line");
        let words: Vec<&str> = line.split(' ').collect();
        match words[..] {
            ["mine", count, "blocks"] => {
                let count = count.parse().expect("a number");
                steps.extend(vec!["mine the block".to_string(); count]);
            }
            _ => steps.push(line.to_string()),
        }
    }
    steps
}

/// A step in words; what is none as a comment.
fn named(case: &Case, step: &[u8]) -> String {
    let outcome = calls::run_number(&case.0, &[1, 0, 0, 0], step);
    let parties = sheet::read(&case.0).expect("a sheet").parties;
    match outcome >> 16 {
        11 if step[0] == 1 && parties.contains(&step[1]) && step[2..] == [255, 2] => {
            swapfile::step_words(&names(case), step)
        }
        11 => format!("# no step: {} {} {} {}", step[0], step[1], step[2], step[3]),
        _ => swapfile::step_words(&names(case), step),
    }
}

#[test]
fn shrunk_and_refused_journals_are_told_in_words() {
    let (program, file) = (built("swap"), built("swapfile"));
    let mut random = Random::new(47);
    let mut fields = 0;
    for _ in 0..100 {
        let case = refused(&mut random);
        let folder = folder(FOLDERS, "refused", &case);
        let path = folder.to_str().expect("text");
        let (sheet, setup, journal) = &case;
        let answer = calls::run_number(sheet, setup, journal);
        let (refusal, count) = (answer >> 16, (answer & 0xffff) as usize);
        let (name, reason) = words::refusal(refusal);
        let part = shrink::part(sheet, setup, journal).expect("a refused step");
        let (text, status) = run(&program, &["shrink", path]);
        let mut expected = vec![
            format!(
                "# step {} of {} is refused: {reason} (SWAP_{name})",
                count + 1,
                journal.len() / 4
            ),
            format!(
                "# the steps that matter, {}; the last is refused:",
                part.len()
            ),
        ];
        expected.extend(part.iter().map(|step| named(&case, step)));
        assert_eq!((steps(&text), status), (expected, 0), "{case:?}");
        let (text, status) = run(&file, &["decode", "--anyway", path]);
        let (_, below) = text.split_once("journal:\n").expect("a journal");
        let mut expected: Vec<String> = journal.chunks(4).map(|step| named(&case, step)).collect();
        if expected.len() > count + 1 {
            expected.insert(count + 1, "# steps behind it:".to_string());
        }
        expected.insert(
            count,
            format!("# step {} is refused: {reason} (SWAP_{name})", count + 1),
        );
        assert_eq!((steps(below), status), (expected, 0), "{case:?}");
        let accepted = (sheet.clone(), setup.clone(), journal[..4 * count].to_vec());
        let whole = swapfile::text(&accepted, None);
        assert!(text.starts_with(&whole), "{text} and {whole}");
        fields += usize::from(refusal == 11);
    }
    println!("{fields} of 100 with fields out of range");
}
