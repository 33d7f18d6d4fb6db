//! What the linked library says of itself.

#![forbid(unsafe_code)]

use crate::ffi;
use std::fmt;

/// The library's version.
#[derive(Clone, Copy, PartialEq, Eq, PartialOrd, Ord, Hash, Debug)]
pub struct Version {
    /// The first number.
    pub major: u32,
    /// The second number.
    pub minor: u32,
    /// The third number.
    pub patch: u32,
}

/// The library's limits. [`Question::Fits`](crate::Question::Fits) is asked of those from `sorts` to `levels`.
#[derive(Clone, Copy, PartialEq, Eq, Hash, Debug)]
pub struct Limits {
    /// Words of each of the three work tables, or more.
    pub table_words: u32,
    /// Words of the fourth table of a session, or more.
    pub kept_words: u32,
    /// Bytes of a script of [`run`](crate::run()) at most.
    pub script_bytes: u32,
    /// Bytes of an answer line at most, its line feed among them.
    pub answer_bytes: u32,
    /// Sorts at most, Bool among them.
    pub sorts: u32,
    /// Symbols at most.
    pub symbols: u32,
    /// Terms at most.
    pub terms: u32,
    /// Argument places of all terms at most.
    pub places: u32,
    /// Argument pairs of congruences in force at most.
    pub pairs: u32,
    /// Open levels at most.
    pub levels: u32,
    /// Variables are numbered below it.
    pub vars: u32,
    /// Numbers of a line at most.
    pub numbers: u32,
}

/// The version of the library that is linked.
pub fn version() -> Version {
    let number = ffi::version();
    Version { major: number / 10_000, minor: number / 100 % 100, patch: number % 100 }
}

/// The limits of the library that is linked.
pub fn limits() -> Limits {
    // By the names of the C interface, which are numbers.
    Limits {
        table_words: ffi::limit(0),
        kept_words: ffi::limit(1),
        script_bytes: ffi::limit(2),
        answer_bytes: ffi::limit(3),
        sorts: ffi::limit(4),
        symbols: ffi::limit(5),
        terms: ffi::limit(6),
        places: ffi::limit(7),
        pairs: ffi::limit(8),
        levels: ffi::limit(9),
        vars: ffi::limit(10),
        numbers: ffi::limit(11),
    }
}

impl fmt::Display for Version {
    fn fmt(&self, f: &mut fmt::Formatter<'_>) -> fmt::Result {
        write!(f, "{}.{}.{}", self.major, self.minor, self.patch)
    }
}
