//! The fixed list of scripts with their answers, whose form `harness/fixed/README.md` describes.

use crate::scripts::{line_by_line, lines, read};
use robinlocker::{run, Answer, Ending, Line, Question, Run, Session, RUN_OUTPUT_BYTES};

struct Record {
    script: Vec<u8>,
    run: Run,
}

/// Takes so many bytes off the front.
fn take<'a>(rest: &mut &'a [u8], count: usize) -> &'a [u8] {
    let (front, back) = rest.split_at(count);
    *rest = back;
    front
}

/// Takes a number of five digits and the byte behind it off the front.
fn take_number(rest: &mut &[u8]) -> usize {
    let digits = &take(rest, 6)[..5];
    std::str::from_utf8(digits).expect("a number has digits").parse().expect("a number has digits")
}

fn take_record(rest: &mut &[u8]) -> Record {
    let (script, answers) = (take_number(rest), take_number(rest));
    let ending = match take_number(rest) {
        0 => Ending::Done,
        2 => Ending::LongScript,
        12 => Ending::Full,
        other => panic!("no run ends with {other}"),
    };
    let answered = take_number(rest);
    let script = take(rest, script).to_vec();
    Record { script, run: Run { answers: take(rest, answers).to_vec(), ending, answered } }
}

fn records() -> Vec<Record> {
    let list = read("crates/session_main/data/list");
    let mut rest = &list[..];
    let mut records = Vec::new();
    while !rest.is_empty() {
        records.push(take_record(&mut rest));
    }
    records
}

#[test]
fn every_script_is_answered_alike_by_run_and_line_by_line() {
    let (mut scripts, mut answered, mut bytes) = (0, 0, 0);
    for (place, record) in records().iter().enumerate() {
        assert_eq!(run(&record.script), record.run, "record {place}");
        // A session has no limit of script bytes, so a script that is too long has nothing to be compared with.
        if record.run.ending != Ending::LongScript {
            assert_eq!(line_by_line(&record.script, RUN_OUTPUT_BYTES), record.run, "record {place}");
        }
        scripts += 1;
        answered += record.run.answered;
        bytes += record.run.answers.len();
    }
    // As many as the gate's own test program counts.
    let counted =
        format!("scripts without a difference {scripts}, their lines {answered}, their bytes of answers {bytes}\n");
    assert_eq!(counted.as_bytes(), read("crates/session_main/stdout"));
}

#[test]
fn a_line_parses_exactly_if_it_reads() {
    let (mut parsed, mut unreadable, mut no_variable) = (0, 0, 0);
    for record in records() {
        let mut session = Session::new();
        for text in lines(&record.script) {
            let answer = session.line(text);
            let says = || format!("{:?}: {answer}", String::from_utf8_lossy(text));
            match Line::parse(text) {
                Ok(line) => {
                    assert_eq!(line.to_bytes(), text);
                    assert_ne!(answer, Answer::Refused(Question::Reads), "{}", says());
                    parsed += 1;
                }
                Err(_) if answer == Answer::Refused(Question::Reads) => unreadable += 1,
                Err(_) => {
                    // It names a variable past those that a type has: after `close` there is none such.
                    assert!(matches!(answer, Answer::Refused(Question::Order | Question::Exists)), "{}", says());
                    assert!(has_large_number(text), "{}", says());
                    no_variable += 1;
                }
            }
        }
    }
    assert!(parsed > 0 && unreadable > 0 && no_variable > 0, "{parsed} {unreadable} {no_variable}");
}

fn has_large_number(line: &[u8]) -> bool {
    let value = line.rsplit(|&byte| byte == b'=').next().expect("a split has a part");
    let number = |digits: &[u8]| std::str::from_utf8(digits).ok()?.parse::<u64>().ok();
    value.split(|&byte| byte == b',').filter_map(number).any(|number| number > 65_535)
}
