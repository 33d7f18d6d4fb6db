//! What the conflicts of unequal terms hang on, and where they stay out.

use super::{rule_of_split, Watcher};
use crate::answer::{Answer, Leaf};
use crate::definition::Session;

/// What is known of a literal that was said by `differ`.
pub(super) struct Said {
    /// Whether it stands in the record, and since which level.
    entered: Option<usize>,
    /// Were the sides equal when it was entered, and have they been since?
    equal_before: bool,
    was_equal: bool,
    /// The highest level at which it was said again while it stood there.
    repeated: Option<usize>,
    /// Whether a pop took such a line back and not the entry.
    outlived: bool,
}

impl Said {
    fn new(level: usize, equal: bool) -> Said {
        Said { entered: Some(level), equal_before: equal, was_equal: equal, repeated: None, outlived: false }
    }

    fn go_back(&mut self, level: usize) {
        self.entered = self.entered.filter(|&entered| entered <= level);
        if self.repeated.is_some_and(|repeated| repeated > level) {
            self.outlived = self.entered.is_some();
            self.repeated = None;
        }
    }
}

fn sides(session: &Session, literal: u32) -> [usize; 2] {
    let sides = session.arguments_of(session.atom_of(literal / 2));
    [sides[0], sides[1]]
}

fn are_equal(session: &Session, literal: u32) -> bool {
    let [t, u] = sides(session, literal);
    session.equal(t, u)
}

/// The literal of unequal terms, which their conflict cites first and no other does.
pub(super) fn cited_unequal(session: &Session, leaves: &[Leaf]) -> Option<u32> {
    match leaves.first() {
        Some(Leaf::Literal(literal)) if literal % 2 == 1 && session.is_equation(*literal) => Some(*literal),
        _ => None,
    }
}

impl Watcher {
    pub(super) fn see_differ(&mut self, session: &Session, literal: u32) {
        let (level, equal) = (session.level(), are_equal(session, literal));
        match self.said.get_mut(&literal) {
            Some(Said { entered: Some(entered), repeated, .. }) => {
                let higher = *entered < level;
                *repeated = (*repeated).max(Some(level).filter(|_| higher));
                self.count(if higher { "differ again at a higher level" } else { "differ again at one level" });
            }
            Some(said) => {
                *said = Said::new(level, equal);
                self.count("differ again after a pop");
            }
            None => {
                self.said.insert(literal, Said::new(level, equal));
            }
        }
    }

    pub(super) fn see_refused_differ(&mut self, session: &Session, literal: u32) {
        if literal % 2 == 0 {
            self.count("refused 13 for a positive literal");
        }
        if !session.is_equation(literal) {
            self.count("refused 13 for an atom that is no equation");
        }
    }

    pub(super) fn go_back_unequal(&mut self, level: usize) {
        self.said.values_mut().for_each(|said| said.go_back(level));
    }

    /// Notes which sides are equal now; a pop may take that back before the next check.
    pub(super) fn note_equal_sides(&mut self, session: &Session) {
        let equal = self.said.iter_mut().filter(|(&literal, _)| are_equal(session, literal));
        equal.for_each(|(_, said)| said.was_equal = true);
    }

    /// The conflict of unequal terms in a check.
    pub(super) fn see_unequal(&mut self, session: &Session, leaves: &[Leaf], literal: u32) {
        self.count("rule unequal terms");
        let [t, u] = sides(session, literal);
        if self.see_depth(&[(t, u)]) > 0 {
            self.count("unequal terms through a congruence");
        }
        self.see_entry(session, literal);
        self.see_reasons(session, leaves, [t, u]);
        self.see_order_of_entries(session, literal);
        self.see_answer_past(session);
    }

    fn see_entry(&mut self, session: &Session, literal: u32) {
        let said = &self.said[&literal];
        let (before, outlived) = (said.equal_before, said.outlived);
        self.count(if before { "unequal terms that were equal before" } else { "unequal terms that became equal" });
        if outlived {
            self.count("unequal terms that outlive their second line");
        }
        if self.went_back {
            self.count("unequal terms after a pop");
        }
        if self.first_variable.get(&session.atom_of(literal / 2)) != Some(&(literal / 2)) {
            self.count("unequal terms that cite a later variable");
        }
    }

    /// Why the sides are equal, and of which sort they are.
    fn see_reasons(&mut self, session: &Session, leaves: &[Leaf], [t, u]: [usize; 2]) {
        let literals = leaves[1..].iter().filter(|leaf| matches!(leaf, Leaf::Literal(_))).count();
        self.count(match (literals, leaves.len() - 1 - literals) {
            (_, 0) => "unequal terms by literals",
            (0, _) => "unequal terms by interface leaves",
            _ => "unequal terms by literals and interface leaves",
        });
        if leaves.len() > 3 {
            self.count("unequal terms with three leaves or more after the literal");
        }
        if session.explain(t, u) != session.explain(u, t) {
            self.count("unequal terms explained otherwise from the second side");
        }
        self.count(match session.sort_of(t) {
            0 => "unequal terms of Bool",
            _ if session.is_datatype(t) => "unequal terms of a datatype",
            _ => "unequal terms of another sort",
        });
        if self.constructors.is_empty() && self.asserted.is_empty() {
            self.count("unequal terms without an application or a tester");
        }
    }

    fn see_order_of_entries(&mut self, session: &Session, literal: u32) {
        let clashing: Vec<u32> = session.unequal_literals().into_iter().filter(|&l| are_equal(session, l)).collect();
        let atoms: Vec<usize> = clashing.iter().map(|l| session.atom_of(l / 2)).collect();
        if clashing.len() > 1 {
            self.count("unequal terms that are the first of several");
        }
        if clashing.iter().any(|&other| other < literal) {
            self.count("unequal terms said before those of a lower literal");
        }
        if atoms[1..].contains(&atoms[0]) {
            self.count("unequal terms with two entries for the atom");
        }
        if session.unequal_literals()[0] != literal {
            self.count("unequal terms behind an entry whose sides are not equal");
        }
    }

    /// What the check would have answered but for the record.
    fn see_answer_past(&mut self, session: &Session) {
        let (after, answer) = session.check_without_unequal();
        let rule = match &answer {
            Answer::Split { atoms, guards, phases } => rule_of_split(&after, atoms, guards, phases),
            Answer::Conflict(_) => "ring",
            Answer::Unknown => "unknown",
            _ => "sat",
        };
        self.count(format!("unequal terms before {rule}"));
        if after.term_count() > session.term_count() {
            self.count("unequal terms before terms are made");
        }
    }

    /// A rule before theirs has answered.
    pub(super) fn see_clash_before_unequal(&mut self, session: &Session, rule: &str) {
        if session.unequal_literals().into_iter().any(|literal| are_equal(session, literal)) {
            self.count(format!("{rule} before unequal terms"));
        }
    }

    /// A check that found no clash.
    pub(super) fn see_past_unequal(&mut self, session: &Session) {
        if !session.unequal_literals().is_empty() {
            self.count("check past unequal terms");
        }
        if self.said.values().any(|said| said.entered.is_some() && said.was_equal) {
            self.count("check past unequal terms that were equal before a pop");
        }
        let gone = |(&literal, said): (&u32, &Said)| said.entered.is_none() && are_equal(session, literal);
        if self.said.iter().any(gone) {
            self.count("check past equal terms whose entry was popped");
        }
        let only_asserted = |literal: &u32| !self.said.contains_key(literal) && are_equal(session, *literal);
        if self.denied_equations.iter().any(only_asserted) {
            self.count("check past equal terms whose negative literal was only asserted");
        }
    }
}
