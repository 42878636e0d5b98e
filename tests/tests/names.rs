//! The refusals have the same names and numbers in the code, in its definitions and in the C header, and the header
//! declares the calls that the code exports.

use std::collections::BTreeMap;

type Names = BTreeMap<String, u32>;

fn text(path: &str) -> String {
    let path = format!("{}/../{path}", env!("CARGO_MANIFEST_DIR"));
    std::fs::read_to_string(&path).unwrap_or_else(|error| panic!("{path}: {error}"))
}

/// The number of a line "NAME .. = NUMBER", without what may follow.
fn number(rest: &str) -> u32 {
    let digits: String = rest
        .trim()
        .chars()
        .take_while(char::is_ascii_digit)
        .collect();
    digits.parse().expect("a number")
}

/// The texts of one file in every crate that names refusals, end to end.
fn texts(file: &str) -> String {
    let folder = format!("{}/../crates", env!("CARGO_MANIFEST_DIR"));
    let crates = std::fs::read_dir(folder).expect("the crates");
    let files = crates.map(|entry| entry.expect("a crate").path().join(file));
    files
        .filter_map(|path| std::fs::read_to_string(path).ok())
        .collect()
}

/// `    SheetShort = 1,`, as SHEET_SHORT, and `pub const ACCEPTED: u32 = 0;`
fn code() -> Names {
    let text = texts("src/refusal.rt");
    let variants = text
        .lines()
        .filter_map(|line| line.strip_prefix("    ")?.strip_suffix(',')?.split_once(" = "))
        .map(|(name, rest)| (upper(name).trim_start_matches('_').to_string(), number(rest)));
    let constants = text
        .lines()
        .filter_map(|line| line.strip_prefix("pub const ")?.split_once(": u32 = "))
        .map(|(name, rest)| (name.to_string(), number(rest)));
    variants.chain(constants).collect()
}

/// `X(SWAP_SHEET_COUNT, 2, "number of transactions outside 1 to 32") \`
fn header() -> Names {
    text("include/swap.h")
        .lines()
        .filter_map(|line| line.trim().strip_prefix("X(SWAP_")?.split_once(", "))
        .map(|(name, rest)| (name.to_string(), number(rest)))
        .collect()
}

/// `sheet_short = 1`, as SHEET_SHORT
fn definitions() -> Names {
    texts("specs/Refusal.antt")
        .lines()
        .filter_map(|line| line.split_once(" = "))
        .filter(|(_, rest)| rest.starts_with(|c: char| c.is_ascii_digit()))
        .map(|(name, rest)| (upper(name), number(rest)))
        .collect()
}

fn upper(name: &str) -> String {
    name.chars()
        .flat_map(|c| {
            if c.is_uppercase() {
                vec!['_', c]
            } else {
                vec![c.to_ascii_uppercase()]
            }
        })
        .collect()
}

#[test]
fn same_names_and_numbers() {
    let code = code();
    let mut numbers: Vec<u32> = code.values().copied().collect();
    numbers.sort_unstable();
    assert_eq!(numbers[..26], (0..=25).collect::<Vec<u32>>());
    assert!(numbers.windows(2).all(|two| two[0] < two[1]), "{numbers:?}");
    assert_eq!(code, header());
    assert_eq!(code, definitions());
}

/// The calls by name, each with its slices in order: whether it writes to them.
type Calls = BTreeMap<String, Vec<bool>>;

/// The calls of a text. Each begins after the mark with a name, and its slices are the parameters with the sign of one.
fn calls(text: &str, mark: &str, sign: char, writes: impl Fn(&str) -> bool) -> Calls {
    let heads = text.split(mark).skip(1);
    let call = |head: &str| {
        let (name, rest) = head.split_once('(').expect("parameters");
        let (name, _) = name.split_once('<').unwrap_or((name, ""));
        let (parameters, _) = rest.split_once(')').expect("an end of them");
        let slices = parameters.split(',').filter(|part| part.contains(sign));
        (name.to_string(), slices.map(&writes).collect())
    };
    heads.map(call).collect()
}

/// `pub extern "C" fn swap_list(sheet: &[u8], .. output: &mut [u8]) -> u32`, in some file of the crate
fn exported() -> Calls {
    let folder = format!("{}/../crates/swap/src", env!("CARGO_MANIFEST_DIR"));
    let files = std::fs::read_dir(folder).expect("the crate's files");
    let names = files.map(|file| file.expect("a file").file_name());
    let texts = names.map(|name| text(&format!("crates/swap/src/{}", name.to_string_lossy())));
    calls(
        &texts.collect::<String>(),
        "extern \"C\" fn ",
        '&',
        |slice| slice.contains("mut "),
    )
}

/// `uint32_t swap_list(const uint8_t *sheet, size_t sheet_length, .. uint8_t *output, size_t output_length);`
fn declared() -> Calls {
    calls(&text("include/swap.h"), "\nuint32_t ", '*', |slice| {
        !slice.contains("const ")
    })
}

#[test]
fn the_header_declares_the_calls() {
    for name in ["swap_check", "swap_run", "swap_list", "swap_report"] {
        assert!(declared().contains_key(name), "{name}");
    }
    assert_eq!(declared(), exported());
}
