//! Things on which an answer hangs and that chance brings seldom, told from the session and the answer.

use super::{Ring, Watcher};
use crate::answer::{Answer, Leaf};
use crate::definition::{Role, Session};
use std::collections::BTreeMap;

impl Watcher {
    /// The marked applications of each class.
    fn crowds(&mut self) -> BTreeMap<usize, Vec<usize>> {
        let mut crowds: BTreeMap<usize, Vec<usize>> = BTreeMap::new();
        for application in self.constructors.clone() {
            crowds.entry(self.class(application)).or_default().push(application);
        }
        crowds
    }

    pub(super) fn see_ring(&mut self, session: &Session, ring: &Ring) {
        let two_fields = |application: usize| {
            session.arguments_of(application).into_iter().filter(|&field| session.is_datatype(field)).count() > 1
        };
        if ring.edges.iter().filter(|&&(_, application)| two_fields(application)).count() > 1 {
            self.count("ring through two classes with two datatype fields");
        }
        if !ring.from_start {
            self.count("ring that the walk enters from outside");
        }
        let crowds = self.crowds();
        if ring.edges.iter().any(|&(field, _)| crowds[&self.class(field)].len() > 1) {
            self.count("ring through a class of several applications");
        }
    }

    pub(super) fn see_tester_clash(&mut self, session: &Session, leaves: &[Leaf]) {
        if let Some(Leaf::Literal(literal)) = leaves.first() {
            let atom = session.atom_of(literal / 2);
            if self.first_variable.get(&atom) != Some(&(literal / 2)) {
                self.count("tester clash that cites a later variable");
            }
        }
        if leaves.len() > 2 {
            self.count("tester clash with two leaves or more after the tester");
        }
        if !session.denied_testers().is_empty() {
            self.count("tester clash before a negative tester's");
        }
    }

    /// What the conflict of a negative tester hangs on, in `assert` and in a check.
    pub(super) fn see_negative(&mut self, session: &Session, literal: u32) {
        let atom = session.atom_of(literal / 2);
        let class = self.class(session.arguments_of(atom)[0]);
        if self.own(session, atom) != self.lowest(class) {
            self.count("negative tester against an application that is not the lowest");
        }
        if self.first_variable.get(&atom) != Some(&(literal / 2)) {
            self.count("negative tester that cites a later variable");
        }
    }

    /// The same in a check only.
    pub(super) fn see_negative_clash(&mut self, session: &Session) {
        let denied: Vec<usize> = session.denied_testers().iter().map(|literal| session.atom_of(literal / 2)).collect();
        if denied.len() > 1 {
            self.count("negative tester that is the first of several");
        }
        if denied.iter().any(|&atom| atom < denied[0]) {
            self.count("negative tester asserted before that of a lower atom");
        }
        if self.went_back {
            self.count("negative tester in check after a pop");
        }
    }

    /// The lowest marked application of a tester's own constructor in its term's class.
    pub(super) fn own(&mut self, session: &Session, atom: usize) -> Option<usize> {
        let (class, constructor) = (self.class(session.arguments_of(atom)[0]), constructor_behind(session, atom));
        let of_constructor = |&&application: &&usize| session.symbol_of(application) == constructor;
        let applications: Vec<usize> = self.constructors.iter().filter(of_constructor).copied().collect();
        applications.into_iter().find(|&application| self.class(application) == class)
    }

    pub(super) fn see_clashing_classes(&mut self, session: &Session) {
        let clashes = |crowd: &&Vec<usize>| crowd.iter().any(|&a| session.symbol_of(a) != session.symbol_of(crowd[0]));
        if self.crowds().values().filter(clashes).count() > 1 {
            self.count("constructor clash in one of two classes");
        }
    }

    /// What a check meets that found no clash.
    pub(super) fn see_past_clashes(&mut self, session: &Session, answer: &Answer) {
        if session.has_negative_record() {
            self.count("check past negative testers");
        }
        self.see_past_unequal(session);
        let crowds = self.crowds();
        if crowds.values().any(|crowd| crowd.len() > 2) {
            self.count("check with three applications in a class");
        }
        if crowds.values().filter(|crowd| crowd.len() > 1).count() > 1 {
            self.count("check with two applications in each of two classes");
        }
        if self.has_foreign_selector(session, &crowds) {
            self.count("check with a foreign selector");
        }
        if !matches!(answer, Answer::Split { phases, .. } if phases.is_empty()) && self.meets_collapsed(session) {
            self.count("check where instantiation meets an atom of collapse");
        }
    }

    /// Is there a collected selector application whose argument has another constructor?
    fn has_foreign_selector(&mut self, session: &Session, crowds: &BTreeMap<usize, Vec<usize>>) -> bool {
        self.collected.clone().into_iter().any(|t| {
            let Some(Role::Selector { .. }) = session.role_of(t) else {
                return false;
            };
            let crowd = crowds.get(&self.class(session.arguments_of(t)[0]));
            crowd.is_some_and(|crowd| session.symbol_of(crowd[0]) != constructor_behind(session, t))
        })
    }

    /// Is an asserted tester's term without an application, and the atom that equates it handed out by collapse?
    fn meets_collapsed(&mut self, session: &Session) -> bool {
        self.asserted.clone().into_iter().any(|atom| {
            let Some(Role::Tester { .. }) = session.role_of(atom) else {
                return false;
            };
            let t = session.arguments_of(atom)[0];
            let class = self.class(t);
            let equates = |&lemma: &usize| {
                let sides = session.arguments_of(lemma);
                sides[0] == t && session.symbol_of(sides[1]) == constructor_behind(session, atom)
            };
            self.lowest(class).is_none() && self.collapsed.iter().any(equates)
        })
    }

    pub(super) fn see_collapse(&mut self, session: &Session, atom: usize) {
        self.collapsed.insert(atom);
        let application = session.arguments_of(session.arguments_of(atom)[0])[0];
        let class = self.class(application);
        if self.lowest(class) != Some(application) {
            self.count("collapse on an application that is not the lowest");
        }
    }
}

/// The symbol of the constructor to which a selector or tester belongs: it comes right before them.
fn constructor_behind(session: &Session, t: usize) -> Option<usize> {
    let before = match session.role_of(t)? {
        Role::Selector { index, .. } => 2 + index,
        Role::Tester { .. } => 1,
        Role::Constructor | Role::Function => 0,
    };
    session.symbol_of(t).map(|symbol| symbol - before)
}
