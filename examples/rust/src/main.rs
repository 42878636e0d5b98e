//! Prints the numbers of a swap as swapreport does: swap-report FOLDER, which holds sheet.bin, setup.bin and journal.bin.

mod swap;

use std::path::Path;
use std::{env, fs, process};
use swap::Swap;

fn fail(of: &Path, reason: impl std::fmt::Display) -> ! {
    eprintln!("swap-report: {}: {reason}", of.display());
    process::exit(1)
}

/// The bytes of a plain file; a named pipe would be waited for.
fn read(path: &Path) -> Vec<u8> {
    match fs::metadata(path) {
        Err(error) => fail(path, error),
        Ok(data) if !data.is_file() => fail(path, "no plain file"),
        Ok(_) => fs::read(path).unwrap_or_else(|error| fail(path, error)),
    }
}

fn number(row: &[u8], at: u32) -> u32 {
    let at = at as usize;
    u32::from_le_bytes([row[at], row[at + 1], row[at + 2], row[at + 3]])
}

fn main() {
    let arguments: Vec<_> = env::args_os().skip(1).collect();
    let [folder] = &arguments[..] else {
        eprintln!("usage: swap-report FOLDER");
        process::exit(2)
    };
    let folder = Path::new(folder);
    let [sheet, setup, journal] =
        ["sheet.bin", "setup.bin", "journal.bin"].map(|name| read(&folder.join(name)));
    let swap = Swap {
        sheet,
        setup,
        journal,
    };
    let tell = |(refusal, count): (u32, u32)| -> ! {
        let (name, words) = swap::refusal(refusal);
        fail(
            folder,
            format!("refused after {count} steps: {words} ({name})"),
        )
    };
    let count = swap::run(&swap).unwrap_or_else(|refused| tell(refused));
    let rows = swap::report(&swap).unwrap_or_else(|refused| tell(refused));
    let kinds = swap.journal.iter().step_by(swap::SWAP_STEP_SIZE as usize);
    let mined = kinds
        .filter(|&&kind| u32::from(kind) == swap::SWAP_MINE)
        .count();
    println!("{count} {} {mined}", swap::SWAP_ACCEPTED);
    for (t, row) in rows.iter().enumerate() {
        let (status, payee) = (
            row[swap::SWAP_REPORT_STATUS as usize],
            row[swap::SWAP_REPORT_PAYEE as usize],
        );
        let block = number(row, swap::SWAP_REPORT_BLOCK);
        let lock = number(row, swap::SWAP_REPORT_LOCK_HEIGHT);
        let deadline = number(row, swap::SWAP_REPORT_DEADLINE);
        println!("{t} {status} {payee} {block} {lock} {deadline}");
    }
}
