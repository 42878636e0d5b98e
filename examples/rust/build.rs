//! Finds the installed library by pkg-config, links it statically, and makes constants and refusals of its table.

use std::path::Path;
use std::process::Command;
use std::{env, fs};

fn variable(name: &str) -> String {
    let mut command = Command::new("pkg-config");
    let output = command
        .arg(format!("--variable={name}"))
        .arg("swap")
        .output();
    let output = output.expect("pkg-config runs");
    assert!(
        output.status.success(),
        "pkg-config knows no swap: PKG_CONFIG_PATH needs PREFIX/lib/pkgconfig"
    );
    String::from_utf8(output.stdout)
        .expect("text")
        .trim()
        .to_string()
}

/// The line of Rust that a line of the table becomes.
fn item(line: &str) -> Option<String> {
    match line.split('\t').collect::<Vec<_>>()[..] {
        ["constant", name, number] => Some(format!("pub const {name}: u32 = {number};\n")),
        ["refusal", number, name, words] => Some(format!("({number}, {name:?}, {words:?}),\n")),
        _ => None,
    }
}

fn main() {
    let (libdir, table) = (variable("libdir"), variable("table"));
    println!("cargo:rustc-link-search=native={libdir}");
    println!("cargo:rustc-link-lib=static=swap");
    println!("cargo:rerun-if-changed={table}");
    println!("cargo:rerun-if-env-changed=PKG_CONFIG_PATH");
    let lines = fs::read_to_string(&table).expect("the installed table");
    let (constants, refusals): (Vec<String>, Vec<String>) = lines
        .lines()
        .filter_map(item)
        .partition(|item| item.starts_with("pub const"));
    let text = format!(
        "{}pub const REFUSALS: &[(u32, &str, &str)] = &[\n{}];\n",
        constants.concat(),
        refusals.concat()
    );
    let folder = env::var("OUT_DIR").expect("cargo's folder");
    fs::write(Path::new(&folder).join("table.rs"), text).expect("a file");
}
