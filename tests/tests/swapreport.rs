//! The built program `swapreport` against the model's text, run in folders of its own.

use std::fs;
use std::path::{Path, PathBuf};
use std::process::{Command, Output};
use swap_tests::model::{page, swapreport};
use swap_tests::random::{self, Case, Random, MINE};

const FILES: [&str; 3] = ["sheet.bin", "setup.bin", "journal.bin"];

fn top() -> PathBuf {
    Path::new(env!("CARGO_MANIFEST_DIR")).join("..")
}

/// A folder that is empty at first and is gone with its value.
struct Folder(PathBuf);

impl Folder {
    fn new(name: &str) -> Folder {
        let path = std::env::temp_dir().join(format!("swapreport-{name}-{}", std::process::id()));
        fs::create_dir(&path).expect("the folder is new");
        Folder(path)
    }

    fn write(&self, (sheet, setup, journal): &Case) {
        for (file, bytes) in FILES.iter().zip([sheet, setup, journal]) {
            fs::write(self.0.join(file), bytes).expect("the file is written");
        }
    }

    fn run(&self) -> Output {
        self.run_with(&[])
    }

    fn run_with(&self, arguments: &[&str]) -> Output {
        let program = top().join("target/bin/swapreport").canonicalize();
        let mut command =
            Command::new(program.expect("`build/crate swapreport` has built the program"));
        command.current_dir(&self.0).args(arguments);
        command.output().expect("it runs")
    }

    /// The page that the program writes for these files, or its message, and the model's.
    fn compare_page(&self, case: &Case) -> Result<String, u32> {
        self.write(case);
        let output = self.run_with(&["--page"]);
        let written = String::from_utf8(output.stdout).expect("the program writes text");
        let message = String::from_utf8(output.stderr).expect("the program writes text");
        let page = page::text(&case.0, &case.1, &case.2);
        let expected = match &page {
            Ok(text) => (text.clone(), String::new()),
            Err(refusal) => (String::new(), format!("no page: refused with {refusal}\n")),
        };
        assert_eq!((written, message), expected, "{case:?}");
        page
    }

    /// What the program writes for these files, and the model's text.
    fn compare(&self, case: &Case) -> String {
        self.write(case);
        let output = self.run();
        let written = String::from_utf8(output.stdout).expect("the program writes text");
        assert_eq!(
            written,
            swapreport::text(&case.0, &case.1, &case.2),
            "{case:?}"
        );
        assert!(output.stderr.is_empty());
        written
    }
}

impl Drop for Folder {
    fn drop(&mut self) {
        fs::remove_dir_all(&self.0).expect("the folder is removed");
    }
}

fn sample() -> Case {
    let data = top().join("crates/swapreport/data");
    let [sheet, setup, journal] =
        FILES.map(|file| fs::read(data.join(file)).expect("the sample is there"));
    (sheet, setup, journal)
}

#[test]
fn an_empty_block_counts() {
    let folder = Folder::new("empty-block");
    let (sheet, setup, journal) = sample();
    let first = |text: String| text.lines().next().map(String::from);
    let before = folder.compare(&(sheet.clone(), setup.clone(), journal.clone()));
    assert_eq!(first(before).as_deref(), Some("6 0 2"));
    let after = folder.compare(&(sheet, setup, [journal, MINE.to_vec()].concat()));
    assert_eq!(first(after).as_deref(), Some("7 0 3"));
}

/// A case; each third one has a sheet of three.
fn any_case(random: &mut Random, number: usize) -> Case {
    match number % 3 {
        2 => random::ring_case(random, 60),
        _ => random::case(random, 60),
    }
}

#[test]
fn random_cases() {
    let folder = Folder::new("random");
    let mut random = Random::new(31);
    let texts: Vec<String> = (0..300)
        .map(|number| folder.compare(&any_case(&mut random, number)))
        .collect();
    assert!(texts.iter().any(|text| text.lines().count() == 1));
    let carol = |line: &str| line.split(' ').nth(2) == Some("3");
    assert!(texts.iter().any(|text| text.lines().skip(1).any(carol)));
    assert!(texts.iter().any(|text| text.lines().count() > 10));
}

/// Files longer than any valid one are refused by what they are, and never cut.
#[test]
fn too_long() {
    let folder = Folder::new("long");
    let (sheet, setup, journal) = sample();
    let mut wide = vec![32, 1, 0, 1, 1];
    wide.extend([255, 1, 1, 0].repeat(32));
    wide.extend([0; 64]);
    let mut ring = vec![160, 1, 0, 1, 1, 1];
    ring.extend([255, 7, 1, 0].repeat(32));
    ring.extend([0; 64]);
    let longer = |bytes: &[u8]| [bytes, &[0]].concat();
    let blocks = |count| [journal.clone(), MINE.repeat(count)].concat();
    let full = blocks((65_536 - journal.len()) / 4);
    let cases = [
        (wide.clone(), setup.clone(), vec![], "0 0 0"),
        (longer(&wide), setup.clone(), vec![], "0 4 0"),
        (ring.clone(), setup.clone(), vec![], "0 0 0"),
        (longer(&ring), setup.clone(), vec![], "0 4 0"),
        (sheet.clone(), longer(&setup), vec![], "0 9 0"),
        (sheet.clone(), setup.clone(), blocks(9_998), "10004 0 10000"),
        (sheet.clone(), setup.clone(), full.clone(), "10004 23 0"),
        (sheet.clone(), setup, longer(&full), "0 24 0"),
    ];
    for (sheet, setup, journal, first) in cases {
        let text = folder.compare(&(sheet, setup, journal));
        assert_eq!(text.lines().next(), Some(first));
    }
}

/// A missing file, and one that cannot be read: a message on standard error, nothing printed.
#[test]
fn unreadable() {
    let folder = Folder::new("unreadable");
    for file in FILES {
        folder.write(&sample());
        let path = folder.0.join(file);
        for folder_instead in [false, true] {
            let _ = fs::remove_file(&path);
            if folder_instead {
                fs::create_dir(&path).expect("the folder is made");
            }
            let output = folder.run();
            assert!(output.stdout.is_empty());
            assert!(String::from_utf8_lossy(&output.stderr).starts_with(file));
        }
        fs::remove_dir(&path).expect("the folder is removed");
    }
}

/// The page for the wall: the stored one of the sample, and random cases.
#[test]
fn pages() {
    let folder = Folder::new("pages");
    let stored = fs::read_to_string(top().join("crates/swapreport/page.txt"));
    let stored = stored.expect("the sample's page is there");
    assert_eq!(folder.compare_page(&sample()), Ok(stored));
    let mut random = Random::new(32);
    let pages: Vec<_> = (0..200)
        .map(|number| folder.compare_page(&any_case(&mut random, number)))
        .collect();
    assert!(pages.iter().any(|page| page.is_err()));
    assert!(pages.iter().flatten().any(|page| page.contains(" Carol ")));
    assert!(pages.iter().flatten().any(|page| page.lines().count() > 10));
}
