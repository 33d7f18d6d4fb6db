//! The version and the limits are those of the C header.

use crate::scripts::read;
use robinlocker::{limits, version};

/// The value of a macro of the header.
fn header(name: &str) -> u32 {
    let text = String::from_utf8(read("include/robinlocker.h")).expect("the header is text");
    let values: Vec<u32> = text.lines().filter_map(|line| macro_value(line, name)).collect();
    assert_eq!(values.len(), 1, "the header defines {name} once");
    values[0]
}

fn macro_value(line: &str, name: &str) -> Option<u32> {
    let mut words = line.split_whitespace();
    let found = words.next() == Some("#define") && words.next() == Some(&format!("ROBINLOCKER_{name}"));
    found.then(|| words.next().and_then(|value| value.parse().ok()))?
}

#[test]
fn the_version_is_that_of_the_header_and_of_the_crate() {
    let version = version();
    assert_eq!(10_000 * version.major + 100 * version.minor + version.patch, header("VERSION"));
    assert_eq!(version.to_string(), env!("CARGO_PKG_VERSION"));
}

#[test]
fn the_limits_are_those_of_the_header() {
    let limits = limits();
    assert_eq!(limits.table_words, header("TABLE_WORDS"));
    assert_eq!(limits.kept_words, header("KEPT_WORDS"));
    assert_eq!(limits.script_bytes, header("SCRIPT_BYTES"));
    assert_eq!(limits.answer_bytes, header("ANSWER_BYTES"));
    assert_eq!(limits.sorts, header("SORTS"));
    assert_eq!(limits.symbols, header("SYMBOLS"));
    assert_eq!(limits.terms, header("TERMS"));
    assert_eq!(limits.places, header("PLACES"));
    assert_eq!(limits.pairs, header("PAIRS"));
    assert_eq!(limits.levels, header("LEVELS"));
    assert_eq!(limits.vars, header("VARS"));
    assert_eq!(limits.numbers, header("NUMBERS"));
}
