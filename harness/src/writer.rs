//! A script in the making: each line goes to a session of the definition at once, so that the next line can depend on
//! its answer.

use crate::answer::Answer;
use crate::definition::Session;
use crate::run::Answers;

pub struct Writer {
    pub script: Vec<u8>,
    pub session: Session,
    pub output: usize,
}

impl Writer {
    pub fn new() -> Writer {
        Writer { script: Vec::new(), session: Session::new(), output: 0 }
    }

    pub fn line(&mut self, text: &str) -> Answer {
        let answer = self.session.answer(text.as_bytes());
        self.script.extend_from_slice(text.as_bytes());
        self.script.push(b'\n');
        self.output += answer.to_string().len() + 1;
        answer
    }

    /// A line that names a key and numbers.
    pub fn numbers(&mut self, key: &str, numbers: &[usize]) -> Answer {
        let numbers: Vec<String> = numbers.iter().map(usize::to_string).collect();
        self.line(&format!("{key}={}", numbers.join(",")))
    }

    /// The number of the term that a `term` or `eq` line made or named.
    pub fn term(&mut self, key: &str, numbers: &[usize]) -> Option<usize> {
        match self.numbers(key, numbers) {
            Answer::Term(number) => Some(number),
            _ => None,
        }
    }
}
