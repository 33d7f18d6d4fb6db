//! A run over a whole script: questions 2 and 12. Question 1 has no counterpart, since no work tables are lent.

use crate::answer::Answer;
use crate::definition::{self, Beyond};
use crate::script;
use crate::session;

pub const MOST_SCRIPT: usize = 65_536;
pub const MOST_OUTPUT: usize = 65_536;

/// A session, which answers one line after the other.
pub trait Answers {
    fn answer(&mut self, line: &[u8]) -> Answer;
}

#[derive(PartialEq, Eq)]
pub struct Run {
    pub result: u32,
    pub lines: usize,
    pub refused: usize,
    pub output: Vec<u8>,
}

/// Whose answers a script is held to.
#[derive(Clone, Copy, PartialEq, Eq, Debug)]
pub enum Source {
    Rust,
    /// The script has a negative tester or unequal terms, which the published Rust is not given.
    Definition,
}

/// A run of the published Rust in `room` bytes of output.
pub fn by_rust(script: &[u8], room: usize) -> Run {
    run_lines(&mut session::Session::new(), script, room, |_, _, _| ())
}

/// A run of the definition, and what the script has that the published Rust is not given.
pub fn by_definition(script: &[u8], room: usize) -> (Run, Beyond) {
    let mut session = definition::Session::new();
    let run = run_lines(&mut session, script, room, |_, _, _| ());
    (run, session.beyond())
}

/// What the lines accepted in a run of the definition have that the published Rust is not given.
pub fn beyond_rust(script: &[u8]) -> Beyond {
    by_definition(script, MOST_OUTPUT).1
}

/// A run of the definition that hands each answered line with its answer, and the session after it, to `seen`.
pub fn watched(script: &[u8], seen: impl FnMut(&definition::Session, &[u8], &Answer)) -> Run {
    run_lines(&mut definition::Session::new(), script, MOST_OUTPUT, seen)
}

/// The run that a script is held to.
pub struct Right {
    pub run: Run,
    pub source: Source,
    /// Whether the definition gives the same run.
    pub agreed: bool,
}

/// The right run in `room` bytes of output.
pub fn right(script: &[u8], room: usize) -> Right {
    let (defined, beyond) = by_definition(script, room);
    if beyond.any() {
        return Right { run: defined, source: Source::Definition, agreed: true };
    }
    let run = by_rust(script, room);
    let agreed = run == defined;
    Right { run, source: Source::Rust, agreed }
}

/// The right run and whose it is. Panics, and says on which script, if the definition and the published Rust differ.
pub fn agreed(script: &[u8]) -> (Run, Source) {
    let Right { run, source, agreed } = right(script, MOST_OUTPUT);
    let text = String::from_utf8_lossy(script);
    assert!(agreed, "the definition and the published Rust answer this script otherwise:\n{text}");
    (run, source)
}

fn run_lines<S: Answers>(session: &mut S, script: &[u8], room: usize, mut seen: impl FnMut(&S, &[u8], &Answer)) -> Run {
    let mut run = Run { result: 0, lines: 0, refused: 0, output: Vec::new() };
    if script.len() > MOST_SCRIPT {
        run.result = 2;
        return run;
    }
    for line in script::lines(script) {
        let answer = session.answer(line);
        let written = run.output.len();
        answer.write(&mut run.output);
        run.output.push(b'\n');
        if run.output.len() > room {
            run.output.truncate(written);
            run.result = 12;
            break;
        }
        run.lines += 1;
        run.refused += usize::from(matches!(answer, Answer::Refused(_)));
        seen(session, line, &answer);
    }
    run
}
