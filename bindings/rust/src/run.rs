//! A whole script in one call.

#![forbid(unsafe_code)]

use crate::{ffi, limits};

/// As much output as the program `robinlocker` lends a run.
pub const RUN_OUTPUT_BYTES: usize = 65_536;

/// A run over a script.
#[derive(Clone, PartialEq, Eq, Debug)]
pub struct Run {
    /// The answer lines, each with its line feed.
    pub answers: Vec<u8>,
    /// How the run ended.
    pub ending: Ending,
    /// How many lines are answered.
    pub answered: usize,
}

/// How a run ended. That a work table is too short, question 1, cannot happen here.
#[derive(Clone, Copy, PartialEq, Eq, Hash, Debug)]
pub enum Ending {
    /// All lines are answered.
    Done = 0,
    /// The script has too many bytes: none of its lines is answered.
    LongScript = 2,
    /// The run stopped at the first line whose answer does not fit the output left.
    Full = 12,
}

impl Ending {
    /// The run's result, as the program and the C interface number it.
    pub const fn number(self) -> u32 {
        self as u32
    }

    fn from_number(number: u32) -> Option<Ending> {
        [Ending::Done, Ending::LongScript, Ending::Full].into_iter().find(|ending| ending.number() == number)
    }
}

/// Answers the lines of a script, with [`RUN_OUTPUT_BYTES`] of output.
///
/// ```
/// let run = robinlocker::run(b"sort=d\nctor=1,1\nclose=1\n");
/// assert_eq!(run.answers, b"ok=1\nok=1\nrefused=10\n");
/// assert_eq!((run.ending, run.answered), (robinlocker::Ending::Done, 3));
/// ```
pub fn run(script: &[u8]) -> Run {
    run_with_output(script, RUN_OUTPUT_BYTES)
}

/// Answers the lines of a script, with so many bytes of output.
pub fn run_with_output(script: &[u8], output_bytes: usize) -> Run {
    let table = || vec![0; limits().table_words as usize];
    let (mut core, mut theory, mut solver) = (table(), table(), table());
    let mut answers = vec![0; output_bytes];
    let left = ffi::run(script, [&mut core, &mut theory, &mut solver], &mut answers);
    answers.truncate(left.written);
    let Some(ending) = Ending::from_number(left.result) else {
        panic!("the library ended a run with {}, which no run has", left.result);
    };
    Run { answers, ending, answered: left.answered }
}
