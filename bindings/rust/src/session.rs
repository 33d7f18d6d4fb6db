//! A session kept open, one line at a time.

#![forbid(unsafe_code)]

use crate::ffi::Tables;
use crate::{limits, Answer, Line};
use std::fmt;

/// An open session with its memory, about 220 KiB on the heap.
///
/// A clone is a session of its own that has had the same lines; it costs a copy of the memory. A session may go to another thread. A
/// line takes up to about half a MiB of stack, so a thread of 1 MiB can send any.
#[derive(Clone)]
pub struct Session {
    tables: Tables,
    /// Room for the longest answer line.
    output: Box<[u8]>,
}

impl Session {
    /// An empty session: it has had no line.
    ///
    /// # Panics
    ///
    /// If the library breaks a promise: that it opens a session on tables of the lengths that it asks for.
    pub fn new() -> Session {
        let limits = limits();
        Session {
            tables: Tables::open(limits.table_words as usize, limits.kept_words as usize),
            output: vec![0; limits.answer_bytes as usize].into_boxed_slice(),
        }
    }

    /// Answers a line, given without its line feed. Any bytes are answered, as [`run`](crate::run()) answers them in a script; bytes
    /// with a line feed among them are one line here, which does not read.
    ///
    /// # Panics
    ///
    /// If the library breaks a promise: that such a line is answered, and that the answer is one.
    pub fn line(&mut self, line: &[u8]) -> Answer {
        let written = match self.tables.line(line, &mut self.output) {
            Ok(written) => written,
            Err(result) => panic!("the library answers no line, result {result}, with room for the longest answer"),
        };
        let text = &self.output[..written];
        let answer = text.strip_suffix(b"\n").and_then(|text| Answer::parse(text).ok());
        answer.unwrap_or_else(|| panic!("the library wrote what is no answer: {:?}", String::from_utf8_lossy(text)))
    }

    /// Answers a line that needs no formatting by the caller.
    pub fn send(&mut self, line: &Line) -> Answer {
        self.line(&line.to_bytes())
    }

    /// Ends the session and sets its tables to zero, as dropping it does.
    pub fn close(self) {}
}

impl Default for Session {
    fn default() -> Session {
        Session::new()
    }
}

impl fmt::Debug for Session {
    fn fmt(&self, f: &mut fmt::Formatter<'_>) -> fmt::Result {
        f.debug_struct("Session").finish_non_exhaustive()
    }
}
