//! Answers and their text.

#![forbid(unsafe_code)]

use crate::text::{list, number, write_list};
use crate::{Lit, Question};
use std::error::Error;
use std::fmt;

/// What a session answers to a line. README.md says what is proved of each and what a search core does with it.
#[derive(Clone, PartialEq, Eq, Hash, Debug)]
pub enum Answer {
    /// `ok=1`: the line is accepted.
    Ok,
    /// `term=N`: the line is accepted, and N is the number of the term that it names.
    Term(u32),
    /// `conflict=` leaves, at least one: each is in force, and no reading makes all true.
    Conflict(Vec<Leaf>),
    /// `split=` atoms`;`guards`;`phases, at least one atom: in every reading a guard or an atom is true.
    Split {
        /// The atoms, as term numbers, to be registered with `var`.
        atoms: Vec<u32>,
        /// The guards.
        guards: Vec<Lit>,
        /// What is proposed of each atom; or empty, if nothing is proposed of any.
        phases: Vec<Phase>,
    },
    /// `sat=1`: a full check has no objection; or the check was not full, and did nothing.
    Sat,
    /// `unknown=1`: some watched term has no constructor yet.
    Unknown,
    /// `refused=n`: the session is as before the line, which fails this question first.
    Refused(Question),
}

/// What a conflict rests on.
#[derive(Clone, Copy, PartialEq, Eq, PartialOrd, Ord, Hash, Debug)]
pub enum Leaf {
    /// `aL`: a literal in force.
    Asserted(Lit),
    /// `iH.G`: the interface equations in force now under this theory and tag.
    Interface {
        /// The theory, H.
        theory: u16,
        /// The tag, G.
        tag: u32,
    },
}

/// What a split proposes for an atom.
#[derive(Clone, Copy, PartialEq, Eq, PartialOrd, Ord, Hash, Debug)]
pub enum Phase {
    /// `1`: try true first.
    TrueFirst,
    /// `-`: nothing.
    NoProposal,
}

/// These bytes are no answer.
#[derive(Clone, Copy, PartialEq, Eq, Debug)]
pub struct NotAnAnswer;

impl Answer {
    /// Reads an answer line, given without its line feed. Every answer of the library reads, and displays as the line it was read from.
    pub fn parse(line: &[u8]) -> Result<Answer, NotAnAnswer> {
        read(line).ok_or(NotAnAnswer)
    }
}

fn read(line: &[u8]) -> Option<Answer> {
    let equals = line.iter().position(|&byte| byte == b'=')?;
    let (key, value) = (&line[..equals], &line[equals + 1..]);
    match (key, value) {
        (b"ok", b"1") => Some(Answer::Ok),
        (b"term", _) => number(value).map(Answer::Term),
        (b"conflict", _) => list(value, read_leaf).map(Answer::Conflict),
        (b"split", _) => read_split(value),
        (b"sat", b"1") => Some(Answer::Sat),
        (b"unknown", b"1") => Some(Answer::Unknown),
        (b"refused", _) => number(value).and_then(Question::from_number).map(Answer::Refused),
        _ => None,
    }
}

fn read_leaf(text: &[u8]) -> Option<Leaf> {
    match text.split_first()? {
        (b'a', rest) => read_literal(rest).map(Leaf::Asserted),
        (b'i', rest) => read_interface(rest),
        _ => None,
    }
}

fn read_literal(text: &[u8]) -> Option<Lit> {
    number(text).and_then(Lit::from_number)
}

fn read_interface(text: &[u8]) -> Option<Leaf> {
    let dot = text.iter().position(|&byte| byte == b'.')?;
    let theory = u16::try_from(number(&text[..dot])?).ok()?;
    Some(Leaf::Interface { theory, tag: number(&text[dot + 1..])? })
}

fn read_split(value: &[u8]) -> Option<Answer> {
    let mut parts = value.split(|&byte| byte == b';');
    let (atoms, guards, phases) = (parts.next()?, parts.next()?, parts.next()?);
    let atoms = list(atoms, number)?;
    let guards = list_or_nothing(guards, read_literal)?;
    let phases = list_or_nothing(phases, read_phase)?;
    let fitting = phases.is_empty() || phases.len() == atoms.len();
    (fitting && parts.next().is_none()).then_some(Answer::Split { atoms, guards, phases })
}

fn list_or_nothing<T>(text: &[u8], item: impl Fn(&[u8]) -> Option<T>) -> Option<Vec<T>> {
    if text.is_empty() {
        Some(Vec::new())
    } else {
        list(text, item)
    }
}

fn read_phase(text: &[u8]) -> Option<Phase> {
    match text {
        b"1" => Some(Phase::TrueFirst),
        b"-" => Some(Phase::NoProposal),
        _ => None,
    }
}

/// The answer line without its line feed.
impl fmt::Display for Answer {
    fn fmt(&self, f: &mut fmt::Formatter<'_>) -> fmt::Result {
        match self {
            Answer::Ok => f.write_str("ok=1"),
            Answer::Term(number) => write!(f, "term={number}"),
            Answer::Conflict(leaves) => {
                f.write_str("conflict=")?;
                write_list(f, leaves)
            }
            Answer::Split { atoms, guards, phases } => {
                f.write_str("split=")?;
                write_list(f, atoms)?;
                f.write_str(";")?;
                write_list(f, guards)?;
                f.write_str(";")?;
                write_list(f, phases)
            }
            Answer::Sat => f.write_str("sat=1"),
            Answer::Unknown => f.write_str("unknown=1"),
            Answer::Refused(question) => write!(f, "refused={}", question.number()),
        }
    }
}

impl fmt::Display for Leaf {
    fn fmt(&self, f: &mut fmt::Formatter<'_>) -> fmt::Result {
        match self {
            Leaf::Asserted(literal) => write!(f, "a{literal}"),
            Leaf::Interface { theory, tag } => write!(f, "i{theory}.{tag}"),
        }
    }
}

impl fmt::Display for Phase {
    fn fmt(&self, f: &mut fmt::Formatter<'_>) -> fmt::Result {
        f.write_str(match self {
            Phase::TrueFirst => "1",
            Phase::NoProposal => "-",
        })
    }
}

impl fmt::Display for NotAnAnswer {
    fn fmt(&self, f: &mut fmt::Formatter<'_>) -> fmt::Result {
        f.write_str("these bytes are no answer")
    }
}

impl Error for NotAnAnswer {}

#[cfg(test)]
mod tests {
    use super::*;
    use crate::Var;

    fn reads(line: &str, answer: Answer) {
        assert_eq!(Answer::parse(line.as_bytes()), Ok(answer.clone()));
        assert_eq!(answer.to_string(), line);
    }

    #[test]
    fn every_kind_reads_and_displays() {
        reads("ok=1", Answer::Ok);
        reads("term=0", Answer::Term(0));
        reads("term=4294967295", Answer::Term(u32::MAX));
        reads("sat=1", Answer::Sat);
        reads("unknown=1", Answer::Unknown);
        for question in Question::ALL {
            reads(&format!("refused={}", question.number()), Answer::Refused(question));
        }
    }

    #[test]
    fn conflicts_read_and_display() {
        let literal = Leaf::Asserted(Var(6).negative());
        let interface = Leaf::Interface { theory: 65_535, tag: u32::MAX };
        reads("conflict=a13", Answer::Conflict(vec![literal]));
        reads("conflict=i65535.4294967295,a13", Answer::Conflict(vec![interface, literal]));
    }

    #[test]
    fn splits_read_and_display() {
        let split = |atoms, guards, phases| Answer::Split { atoms, guards, phases };
        reads("split=14;;", split(vec![14], vec![], vec![]));
        reads("split=3;1;", split(vec![3], vec![Var(0).negative()], vec![]));
        let phases = vec![Phase::NoProposal, Phase::TrueFirst, Phase::TrueFirst];
        reads("split=9,10,11;;-,1,1", split(vec![9, 10, 11], vec![], phases));
    }

    #[test]
    fn other_bytes_are_no_answer() {
        let wrong = "|=|ok|ok=|ok=0|ok=01|ok=1 | ok=1|OK=1|ok=1\n|term=|term=01|term=4294967296|term=1,2|sat=0|unknown=0|conflict=|\
            conflict=a|conflict=0|conflict=a1,|conflict=,a1|conflict=b1|conflict=i1|conflict=i1.|conflict=i.1|conflict=i65536.1|\
            conflict=a131072|conflict=i1.2.3|split=|split=1|split=1;|split=1;;;|split=;;|split=1;;-,1|split=1,2;;1|split=1;;0|\
            split=1;x;|split=1,;;|refused=|refused=0|refused=1|refused=2|refused=12|refused=14|refused=03|model=1";
        for line in wrong.split('|') {
            assert_eq!(Answer::parse(line.as_bytes()), Err(NotAnAnswer), "{line:?}");
        }
        assert_eq!(Answer::parse(b"\xff=1"), Err(NotAnAnswer));
    }
}
