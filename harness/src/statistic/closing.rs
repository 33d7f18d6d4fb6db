//! What the answers to `close` hang on: which datatypes are inhabited, and through which others.

use super::Watcher;
use crate::definition::Session;
use std::collections::BTreeSet;

impl Watcher {
    pub(super) fn see_close(&mut self, session: &Session) {
        if self.refused_close {
            self.count("close after a refusal by 10");
        }
        if session.datatypes().iter().any(|&dt| !has_plain_constructor(session, dt)) {
            self.count("close with a datatype of no plain constructor");
        }
        let rounds = rounds_needed(session);
        match rounds {
            0 => {}
            1 => self.count("close in 1 round"),
            2 => self.count("close in 2 rounds"),
            _ => self.count("close in 3 rounds or more"),
        }
        if rounds >= 5 {
            self.count("close in 5 rounds or more");
        }
        if most_mutually_recursive(session) >= 5 {
            self.count("close with five mutually recursive datatypes");
        }
    }

    pub(super) fn see_refused_close(&mut self, session: &Session) {
        self.refused_close = true;
        let datatypes = session.datatypes();
        if datatypes.iter().any(|&dt| session.datatype_fields(dt).is_empty()) {
            self.count("refused 10 with a datatype of no constructor");
        } else {
            self.count("refused 10 with constructors for each datatype");
        }
        if datatypes.len() > 1 && datatypes.len() == found(session, datatypes.len()) + 1 {
            self.count("refused 10 for one of several datatypes");
        }
        if most_mutually_recursive(session) >= 5 {
            self.count("refused 10 with five mutually recursive datatypes");
        }
    }
}

fn has_plain_constructor(session: &Session, dt: usize) -> bool {
    session.datatype_fields(dt).iter().any(Vec::is_empty)
}

/// How many datatypes so many rounds find.
fn found(session: &Session, rounds: usize) -> usize {
    session.rounds(rounds).len()
}

/// The rounds until all datatypes are found, which they are in the end.
fn rounds_needed(session: &Session) -> usize {
    let count = session.datatypes().len();
    (0..=count).find(|&rounds| found(session, rounds) == count).expect("all are inhabited")
}

/// The most datatypes of which each has a tree with the others in it.
fn most_mutually_recursive(session: &Session) -> usize {
    let datatypes = session.datatypes();
    let reached: Vec<BTreeSet<usize>> = datatypes.iter().map(|&dt| reached_from(session, dt)).collect();
    let is_mutual = |a: usize, b: usize| reached[a].contains(&datatypes[b]) && reached[b].contains(&datatypes[a]);
    let sizes = (0..datatypes.len()).map(|a| (0..datatypes.len()).filter(|&b| is_mutual(a, b)).count());
    sizes.max().unwrap_or(0)
}

/// The datatypes of the fields below a datatype.
fn reached_from(session: &Session, dt: usize) -> BTreeSet<usize> {
    let mut reached = BTreeSet::new();
    let mut open = vec![dt];
    while let Some(sort) = open.pop() {
        open.extend(session.datatype_fields(sort).concat().into_iter().filter(|&field| reached.insert(field)));
    }
    reached
}
