//! The programs in C as tests run them: built, each in a folder with a swap.

use crate::random::Case;
use std::fs;
use std::path::{Path, PathBuf};
use std::process::Command;

/// The program of `examples/` that has this name.
pub fn built(name: &str) -> PathBuf {
    let top = Path::new(env!("CARGO_MANIFEST_DIR")).join("..");
    let top = top.canonicalize().expect("the repository");
    let program = top.join("target/c").join(name);
    let mut build = Command::new(top.join("examples").join(name).join("build"));
    let status = build.arg(&program).arg("-O2").status();
    assert!(status.expect("the build runs").success());
    program
}

/// A folder of this name below that of the tests, with this swap alone.
pub fn folder(tests: &str, name: &str, (sheet, setup, journal): &Case) -> PathBuf {
    let folder = Path::new(tests).join(name);
    let _ = fs::remove_dir_all(&folder);
    fs::create_dir_all(&folder).expect("a folder");
    for (name, bytes) in [
        ("sheet.bin", sheet),
        ("setup.bin", setup),
        ("journal.bin", journal),
    ] {
        fs::write(folder.join(name), bytes).expect("a file");
    }
    folder
}
