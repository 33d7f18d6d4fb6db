//! Scripts with their answers: the sample sheet and the examples, by run and line by line.

use robinlocker::{run, run_with_output, Ending, Run, Session};
use std::fs;
use std::path::PathBuf;

/// A file of the repository.
pub fn file(name: &str) -> PathBuf {
    PathBuf::from(env!("CARGO_MANIFEST_DIR")).join("../..").join(name)
}

pub fn read(name: &str) -> Vec<u8> {
    fs::read(file(name)).unwrap_or_else(|error| panic!("{name}: {error}"))
}

/// The lines of a script; the last may lack its line feed.
pub fn lines(script: &[u8]) -> impl Iterator<Item = &[u8]> {
    script.split_inclusive(|&byte| byte == b'\n').map(|line| line.strip_suffix(b"\n").unwrap_or(line))
}

/// Sends the lines of a script to a new session, and ends as a run with so much output does.
pub fn line_by_line(script: &[u8], output_bytes: usize) -> Run {
    let mut session = Session::new();
    let mut all = Run { answers: Vec::new(), ending: Ending::Done, answered: 0 };
    for line in lines(script) {
        let answer = format!("{}\n", session.line(line));
        if all.answers.len() + answer.len() > output_bytes {
            all.ending = Ending::Full;
            return all;
        }
        all.answers.extend_from_slice(answer.as_bytes());
        all.answered += 1;
    }
    all
}

fn answers_are(script: &[u8], answers: Vec<u8>) {
    let expected = Run { answered: lines(&answers).count(), answers, ending: Ending::Done };
    assert_eq!(run(script), expected);
    assert_eq!(line_by_line(script, usize::MAX), expected);
}

#[test]
fn the_sample_sheet_has_its_answers() {
    answers_are(&read("crates/robinlocker/stdin"), read("crates/robinlocker/stdout"));
}

#[test]
fn the_examples_have_their_answers() {
    let mut compared = 0;
    for entry in fs::read_dir(file("harness/examples")).expect("the examples are there") {
        let script = entry.expect("the folder reads").path();
        if script.extension().is_some_and(|extension| extension == "in") {
            let answers = fs::read(script.with_extension("out")).expect("each example has its answers");
            answers_are(&fs::read(&script).expect("the example reads"), answers);
            compared += 1;
        }
    }
    assert_eq!(compared, 11);
}

#[test]
fn every_size_of_output_ends_as_line_by_line() {
    let sheet = read("crates/robinlocker/stdin");
    let full = run(&sheet).answers.len();
    for room in 0..=full {
        let ran = run_with_output(&sheet, room);
        assert_eq!(ran.ending, if room < full { Ending::Full } else { Ending::Done });
        assert_eq!(ran, line_by_line(&sheet, room));
    }
}

#[test]
fn a_script_may_be_empty_and_may_be_too_long() {
    assert_eq!(run(b""), Run { answers: vec![], ending: Ending::Done, answered: 0 });
    assert_eq!(run(&[b'\n'; 65_537]), Run { answers: vec![], ending: Ending::LongScript, answered: 0 });
    let longest = run(&[b'\n'; 65_536]);
    assert_eq!((longest.ending, longest.answered), (Ending::Full, 6_553));
}
