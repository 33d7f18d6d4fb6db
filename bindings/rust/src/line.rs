//! Lines and their text.

#![forbid(unsafe_code)]

use crate::text::{list, number, write_list};
use crate::{Lit, Var};
use std::error::Error;
use std::fmt;

/// How many numbers a line has at most.
const MOST_NUMBERS: usize = 17;

/// A line of a script. Sorts, symbols and terms are numbered from 0 as made; sort 0 is Bool.
///
/// Every line that is written reads, with one exception that a type cannot say: a `Ctor`, `Fun` or `Term` with more than 16 fields or
/// arguments is answered with [`Question::Reads`](crate::Question::Reads).
#[derive(Clone, PartialEq, Eq, Hash, Debug)]
pub enum Line {
    /// `sort=d` declares a datatype, `sort=u` another sort.
    Sort {
        /// Is it a datatype?
        datatype: bool,
    },
    /// `ctor=S,F..` declares a constructor; it takes symbols for itself, its tester and each selector, in this order.
    Ctor {
        /// The datatype.
        sort: u32,
        /// The sorts of the fields.
        fields: Vec<u32>,
    },
    /// `fun=R,A..` declares a function.
    Fun {
        /// The sort of its results.
        result: u32,
        /// The sorts of its arguments.
        arguments: Vec<u32>,
    },
    /// `close=1` ends declarations.
    Close,
    /// `term=S,T..` makes a symbol applied to terms; one that exists gives its old number.
    Term {
        /// The symbol.
        symbol: u32,
        /// The terms.
        arguments: Vec<u32>,
    },
    /// `eq=T,U` makes the equation of two terms.
    Eq(u32, u32),
    /// `var=V,T` registers a Boolean term as a variable.
    Var {
        /// The variable.
        var: Var,
        /// The term.
        atom: u32,
    },
    /// `equate=L` merges the sides of the equation of a positive literal.
    Equate(Lit),
    /// `cong=T,U` merges two applications of one symbol whose arguments are equal now.
    Cong(u32, u32),
    /// `iface=T,U,H,G` merges two terms for another theory's reason.
    Iface {
        /// The first term.
        left: u32,
        /// The second term.
        right: u32,
        /// The other theory, H.
        theory: u16,
        /// Its tag for the reason, G.
        tag: u32,
    },
    /// `assert=L` puts a literal in force.
    Assert(Lit),
    /// `differ=L` keeps the sides of the equation of a negative literal apart.
    Differ(Lit),
    /// `push=1` opens a level.
    Push,
    /// `pop=K` goes back to level K.
    Pop(u32),
    /// `check=1` checks in full; `check=0` does nothing and is answered `sat=1`.
    Check {
        /// Is it a full check?
        full: bool,
    },
}

/// These bytes are no [`Line`]: they do not read, or name a variable past 65,535, which no session has.
#[derive(Clone, Copy, PartialEq, Eq, Debug)]
pub struct NotALine;

impl Line {
    /// Reads a line, given without its line feed.
    pub fn parse(line: &[u8]) -> Result<Line, NotALine> {
        read(line).ok_or(NotALine)
    }

    /// Its text, without a line feed.
    pub fn to_bytes(&self) -> Vec<u8> {
        self.to_string().into_bytes()
    }
}

fn read(line: &[u8]) -> Option<Line> {
    let equals = line.iter().position(|&byte| byte == b'=')?;
    let (key, value) = (&line[..equals], &line[equals + 1..]);
    match (key, value) {
        (b"sort", b"d") => Some(Line::Sort { datatype: true }),
        (b"sort", b"u") => Some(Line::Sort { datatype: false }),
        _ => read_numbers(key, &list(value, number)?),
    }
}

fn read_numbers(key: &[u8], numbers: &[u32]) -> Option<Line> {
    if numbers.len() > MOST_NUMBERS {
        return None;
    }
    match (key, numbers) {
        (b"ctor", [sort, fields @ ..]) => Some(Line::Ctor { sort: *sort, fields: fields.to_vec() }),
        (b"fun", [result, arguments @ ..]) => Some(Line::Fun { result: *result, arguments: arguments.to_vec() }),
        (b"close", [1]) => Some(Line::Close),
        (b"term", [symbol, arguments @ ..]) => Some(Line::Term { symbol: *symbol, arguments: arguments.to_vec() }),
        (b"eq", &[left, right]) => Some(Line::Eq(left, right)),
        (b"var", &[var, atom]) => Some(Line::Var { var: Var(u16::try_from(var).ok()?), atom }),
        (b"equate", &[literal]) => Lit::from_number(literal).map(Line::Equate),
        (b"cong", &[left, right]) => Some(Line::Cong(left, right)),
        (b"iface", &[left, right, theory, tag]) => {
            Some(Line::Iface { left, right, theory: u16::try_from(theory).ok()?, tag })
        }
        (b"assert", &[literal]) => Lit::from_number(literal).map(Line::Assert),
        (b"differ", &[literal]) => Lit::from_number(literal).map(Line::Differ),
        (b"push", [1]) => Some(Line::Push),
        (b"pop", &[level]) => Some(Line::Pop(level)),
        (b"check", &[effort @ (0 | 1)]) => Some(Line::Check { full: effort == 1 }),
        _ => None,
    }
}

/// The text without a line feed.
impl fmt::Display for Line {
    fn fmt(&self, f: &mut fmt::Formatter<'_>) -> fmt::Result {
        match self {
            Line::Sort { datatype } => f.write_str(if *datatype { "sort=d" } else { "sort=u" }),
            Line::Ctor { sort, fields } => write_application(f, "ctor", *sort, fields),
            Line::Fun { result, arguments } => write_application(f, "fun", *result, arguments),
            Line::Close => f.write_str("close=1"),
            Line::Term { symbol, arguments } => write_application(f, "term", *symbol, arguments),
            Line::Eq(left, right) => write!(f, "eq={left},{right}"),
            Line::Var { var, atom } => write!(f, "var={var},{atom}"),
            Line::Equate(literal) => write!(f, "equate={literal}"),
            Line::Cong(left, right) => write!(f, "cong={left},{right}"),
            Line::Iface { left, right, theory, tag } => write!(f, "iface={left},{right},{theory},{tag}"),
            Line::Assert(literal) => write!(f, "assert={literal}"),
            Line::Differ(literal) => write!(f, "differ={literal}"),
            Line::Push => f.write_str("push=1"),
            Line::Pop(level) => write!(f, "pop={level}"),
            Line::Check { full } => write!(f, "check={}", u8::from(*full)),
        }
    }
}

/// A key with one number and a list behind it, which may be empty.
fn write_application(f: &mut fmt::Formatter<'_>, key: &str, first: u32, rest: &[u32]) -> fmt::Result {
    write!(f, "{key}={first}")?;
    if !rest.is_empty() {
        f.write_str(",")?;
    }
    write_list(f, rest)
}

impl fmt::Display for NotALine {
    fn fmt(&self, f: &mut fmt::Formatter<'_>) -> fmt::Result {
        f.write_str("these bytes are no line")
    }
}

impl Error for NotALine {}

#[cfg(test)]
mod tests {
    use super::*;

    #[test]
    fn every_kind_displays_and_reads() {
        let lit = Var(6).negative();
        let kinds = [
            (Line::Sort { datatype: true }, "sort=d"),
            (Line::Sort { datatype: false }, "sort=u"),
            (Line::Ctor { sort: 2, fields: vec![] }, "ctor=2"),
            (Line::Ctor { sort: 2, fields: vec![1, 0] }, "ctor=2,1,0"),
            (Line::Fun { result: 1, arguments: vec![] }, "fun=1"),
            (Line::Fun { result: 1, arguments: vec![2] }, "fun=1,2"),
            (Line::Close, "close=1"),
            (Line::Term { symbol: 7, arguments: vec![] }, "term=7"),
            (Line::Term { symbol: 7, arguments: vec![8, 9] }, "term=7,8,9"),
            (Line::Eq(5, u32::MAX), "eq=5,4294967295"),
            (Line::Var { var: Var(65_535), atom: 14 }, "var=65535,14"),
            (Line::Equate(Var(65_535).positive()), "equate=131070"),
            (Line::Cong(12, 13), "cong=12,13"),
            (Line::Iface { left: 1, right: 2, theory: 65_535, tag: 3 }, "iface=1,2,65535,3"),
            (Line::Assert(lit), "assert=13"),
            (Line::Differ(lit), "differ=13"),
            (Line::Push, "push=1"),
            (Line::Pop(0), "pop=0"),
            (Line::Check { full: true }, "check=1"),
            (Line::Check { full: false }, "check=0"),
        ];
        for (line, text) in kinds {
            assert_eq!(line.to_string(), text);
            assert_eq!(line.to_bytes(), text.as_bytes());
            assert_eq!(Line::parse(text.as_bytes()), Ok(line));
        }
    }

    #[test]
    fn other_bytes_are_no_line() {
        let wrong = "|=|sort|sort=|sort=x|sort=1|ctor=|ctor=1,|close=0|close=1,1|term=|eq=1|eq=1,2,3|var=1|var=65536,1|equate=131072|\
            equate=|equate=1,2|cong=1|iface=1,2,3|iface=1,2,65536,3|assert=|differ=1,1|push=0|push=2|pop=|pop=1,2|check=2|check=01|\
            term=01|Term=1|term =1|term=1 |model=1|sort=d\n";
        for line in wrong.split('|') {
            assert_eq!(Line::parse(line.as_bytes()), Err(NotALine), "{line:?}");
        }
    }

    #[test]
    fn a_line_has_at_most_seventeen_numbers() {
        let term = |count| Line::Term { symbol: 0, arguments: vec![0; count] };
        assert_eq!(Line::parse(&term(16).to_bytes()), Ok(term(16)));
        assert_eq!(Line::parse(&term(17).to_bytes()), Err(NotALine));
    }
}
