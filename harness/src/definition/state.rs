//! State.antt: what the solver sees and keeps.

use super::atom::Registered;
use super::context::{Context, CtorApp, Op, SelApp, TesterApp};
use super::eq_engine::EqEngine;

/// An entry of a record: an atom, the literal of it that a line put in force, the level it came at.
#[derive(Clone, Copy)]
pub struct AssertedAtom {
    pub atom: usize,
    pub lit: u32,
    pub level: usize,
}

/// Sets of terms are ascending lists.
#[derive(Clone, Default)]
pub struct DtSolver {
    pub marks: Vec<usize>,
    pub level_record: Vec<AssertedAtom>,
    /// The record of negative testers, in order of assertion.
    pub negative_record: Vec<AssertedAtom>,
    /// The record of unequal terms, in order of the lines.
    pub disequalities: Vec<AssertedAtom>,
    pub lasting: Vec<usize>,
    /// Atoms handed out by collapse, tester lemma and instantiation.
    pub emitted: Vec<usize>,
    pub split_done: Vec<usize>,
}

#[derive(Clone)]
pub struct State {
    pub terms: Context,
    pub eq: EqEngine,
    pub atoms: Vec<Registered>,
    pub level: usize,
    pub dt: DtSolver,
}

/// Adds a member to a set. False if it was there.
pub fn insert(set: &mut Vec<usize>, x: usize) -> bool {
    let place = set.binary_search(&x);
    if let Err(place) = place {
        set.insert(place, x);
    }
    place.is_err()
}

pub fn mem(x: usize, set: &[usize]) -> bool {
    set.binary_search(&x).is_ok()
}

impl State {
    pub fn empty() -> State {
        State { terms: Context::empty(), eq: EqEngine::default(), atoms: Vec::new(), level: 0, dt: DtSolver::default() }
    }

    /// Marked constructor applications, ascending.
    pub fn ctor_apps(&self) -> impl Iterator<Item = CtorApp> + '_ {
        self.dt.marks.iter().filter_map(|&t| self.terms.ctor_app(t))
    }

    pub fn sel_apps(&self) -> impl Iterator<Item = SelApp> + '_ {
        self.dt.marks.iter().filter_map(|&t| self.terms.sel_app(t))
    }

    pub fn testers(&self) -> impl Iterator<Item = TesterApp> + '_ {
        self.dt.marks.iter().filter_map(|&t| self.terms.tester_app(t))
    }

    /// The marked datatype terms.
    pub fn watched_dt_terms(&self) -> impl Iterator<Item = usize> + '_ {
        self.dt.marks.iter().copied().filter(|&t| self.terms.is_datatype_sort(self.terms.sort_of(t)))
    }

    pub fn equal(&self, x: usize, y: usize) -> bool {
        self.eq.are_equal(x, y)
    }

    /// The lowest marked constructor application of a term's class.
    pub fn ctor_of_class(&self, t: usize) -> Option<CtorApp> {
        self.ctor_apps().find(|c| self.equal(t, c.app))
    }

    pub fn mark(&mut self, t: usize) {
        insert(&mut self.dt.marks, t);
    }

    pub fn make_app(&mut self, f: usize, args: &[usize]) -> usize {
        self.terms.mk_app(Op::Uninterpreted(f), args)
    }

    /// Made and marked.
    pub fn mint(&mut self, f: usize, args: &[usize]) -> usize {
        let t = self.make_app(f, args);
        self.mark(t);
        t
    }
}
