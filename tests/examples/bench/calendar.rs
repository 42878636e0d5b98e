//! What the calendar takes for a desk: links to the folders of the sample desk, again and again.

use crate::table::{head, row, whole};
use std::fs;
use std::os::unix::fs::symlink;
use std::path::{Path, PathBuf};
use std::process::{Child, Command, Stdio};
use swap_tests::samples;

/// How often each desk is shown. The run of the least processor time counts.
const TURNS: usize = 5;

/// C's `struct rusage` on 64-bit Linux: seconds and microseconds in the program and in the system, the most memory in
/// kilobytes, and what is not used here.
#[repr(C)]
#[derive(Default)]
struct Usage {
    program: [i64; 2],
    system: [i64; 2],
    memory: i64,
    rest: [i64; 13],
}

extern "C" {
    fn wait4(child: i32, status: *mut i32, options: i32, usage: *mut Usage) -> i32;
}

/// `WARNINGS` of the calendar's exit status, as `wait4` has it.
const WARNINGS: i32 = 3 << 8;

/// Waits for a calendar to end, with warnings: what it has used.
fn used(child: Child) -> Usage {
    let mut usage = Usage::default();
    let mut status = 0;
    let id = child.id() as i32;
    // SAFETY: the pointers are to a number and a record of our own; nobody else waits for the child.
    assert_eq!(unsafe { wait4(id, &mut status, 0, &mut usage) }, id);
    assert_eq!(status, WARNINGS);
    usage
}

fn milliseconds([seconds, microseconds]: [i64; 2]) -> f64 {
    seconds as f64 * 1e3 + microseconds as f64 / 1e3
}

/// The folders of the sample desk's swaps.
fn sample(folder: &Path) -> std::io::Result<Vec<PathBuf>> {
    let folder = folder.canonicalize()?;
    let entries = fs::read_dir(folder)?.map(|entry| entry.map(|entry| entry.path()));
    let mut folders: Vec<PathBuf> = entries.collect::<Result<_, _>>()?;
    folders.sort();
    Ok(folders)
}

/// The steps of their journals on average.
fn steps(folders: &[PathBuf]) -> usize {
    let journals = folders
        .iter()
        .flat_map(|folder| samples::read(folder)[2].take());
    journals.map(|journal| journal.len()).sum::<usize>() / 4 / folders.len()
}

/// A desk of so many swaps, each a link to one of these folders.
fn make(desk: &Path, folders: &[PathBuf], swaps: usize) -> std::io::Result<()> {
    fs::create_dir_all(desk)?;
    let mut folders = folders.iter().cycle().take(swaps).enumerate();
    folders.try_for_each(|(i, folder)| symlink(folder, desk.join(format!("swap_{i:05}"))))
}

/// The least of what the calendar uses for a desk.
fn least(program: &Path, desk: &Path) -> std::io::Result<[f64; 3]> {
    let mut least = [f64::INFINITY; 3];
    for _ in 0..TURNS {
        let child = Command::new(program)
            .args([desk.as_os_str(), "3".as_ref()])
            .stdout(Stdio::null())
            .spawn()?;
        let usage = used(child);
        let [program, system] = [usage.program, usage.system].map(milliseconds);
        if program + system < least[0] + least[1] {
            least = [program, system, usage.memory as f64 / 1e3];
        }
    }
    Ok(least)
}

/// The rows. Before the other tables, since what a program has used counts the memory of the one that starts it.
pub fn rates() -> std::io::Result<()> {
    let top = Path::new(env!("CARGO_MANIFEST_DIR")).join("..");
    let program = top.join("target/c/calendar");
    let built = Command::new(top.join("examples/calendar/build"))
        .args([program.as_os_str(), "-O2".as_ref()])
        .status()?;
    assert!(built.success(), "the calendar is not built");
    let folder = std::env::temp_dir().join(format!("desks.{}", std::process::id()));
    let columns = [
        "milliseconds in the program",
        "in the system",
        "megabytes at most",
    ];
    let sample = sample(&top.join("examples/calendar/samples/desk"))?;
    let unit = format!(
        "A whole desk, shown as the screen has it; a journal has {} steps on average.",
        steps(&sample)
    );
    head("The calendar", &unit, &columns);
    for swaps in [40, 1_000, 10_000] {
        let desk = folder.join(swaps.to_string());
        make(&desk, &sample, swaps)?;
        let cells = least(&program, &desk)?.map(|number| format!("{number:.1}"));
        row(&format!("{} swaps", whole(swaps)), &cells);
    }
    fs::remove_dir_all(folder)
}
