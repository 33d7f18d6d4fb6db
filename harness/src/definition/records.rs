//! Records.antt: collection, the records by level, `assert` and `differ`.

use super::atom;
use super::context::{Context, CtorApp, TesterApp};
use super::eq_engine::firsts;
use super::state::{insert, AssertedAtom, State};
use crate::answer::Leaf;

/// Constructor, selector and tester applications and datatype terms.
fn relevant(cx: &Context, t: usize) -> bool {
    cx.ctor_app(t).is_some()
        || cx.sel_app(t).is_some()
        || cx.tester_app(t).is_some()
        || cx.is_datatype_sort(cx.sort_of(t))
}

/// A term and what lies below it, each once.
fn collect(cx: &Context, t: usize, seen: &mut Vec<usize>) {
    if insert(seen, t) {
        for &child in cx.children(t) {
            collect(cx, child, seen);
        }
    }
}

/// The entries of a record and, unless the atom has one, an entry for it.
fn enter(record: &mut Vec<AssertedAtom>, entry: AssertedAtom) {
    if !record.iter().any(|e| e.atom == entry.atom) {
        record.push(entry);
    }
}

/// The entries of level k or lower.
pub fn pop_entries(k: usize, record: &mut Vec<AssertedAtom>) {
    record.retain(|e| e.level <= k);
}

impl State {
    /// A registered atom is collected, the atom included.
    pub fn new_var(&mut self, t: usize) {
        let mut seen = Vec::new();
        collect(&self.terms, t, &mut seen);
        seen.retain(|&u| relevant(&self.terms, u));
        for u in seen {
            self.mark(u);
        }
    }

    /// A positive tester goes into the lasting record and into the level record.
    fn record_tester(&mut self, atom: usize, lit: u32) {
        insert(&mut self.dt.lasting, atom);
        enter(&mut self.dt.level_record, AssertedAtom { atom, lit, level: self.level });
    }

    /// A negative tester goes into a record of its own.
    fn record_negative(&mut self, atom: usize, lit: u32) {
        enter(&mut self.dt.negative_record, AssertedAtom { atom, lit, level: self.level });
    }

    /// A negative equation literal goes into a record of its own, once per literal.
    pub fn differ(&mut self, lit: u32) {
        let (record, atom) = (&mut self.dt.disequalities, atom::atom(&self.atoms, lit as usize / 2));
        if !record.iter().any(|e| e.lit == lit) {
            record.push(AssertedAtom { atom, lit, level: self.level });
        }
    }

    /// A literal, then one term explained to another.
    fn literal_leaves(&self, lit: u32, t: usize, u: usize) -> Vec<Leaf> {
        firsts([vec![Leaf::Literal(lit)], self.eq.explain(t, u)].concat())
    }

    /// The literal, then the term explained to the application.
    fn tester_leaves(&self, lit: u32, t: usize, c: &CtorApp) -> Vec<Leaf> {
        self.literal_leaves(lit, t, c.app)
    }

    /// The conflict of a tester with the lowest marked constructor application of its term's class.
    pub fn tester_conflict(&self, lit: u32, x: &TesterApp) -> Option<Vec<Leaf>> {
        let c = self.ctor_of_class(x.arg)?;
        (c.ctor != x.ctor).then(|| self.tester_leaves(lit, x.arg, &c))
    }

    /// The lowest marked application of that very constructor in its term's class.
    pub fn own_app(&self, x: &TesterApp) -> Option<CtorApp> {
        self.ctor_apps().find(|c| c.ctor == x.ctor && self.equal(x.arg, c.app))
    }

    /// The conflict of a negative tester with that application.
    pub fn negative_conflict(&self, lit: u32, x: &TesterApp) -> Option<Vec<Leaf>> {
        self.own_app(x).map(|c| self.tester_leaves(lit, x.arg, &c))
    }

    /// The conflict of a negative equation literal: the literal, then the first side explained to the second.
    pub fn disequality_conflict(&self, lit: u32, atom: usize) -> Option<Vec<Leaf>> {
        let sides = self.terms.children(atom);
        let (a, b) = (sides[0], sides[1]);
        self.equal(a, b).then(|| self.literal_leaves(lit, a, b))
    }

    /// The tester application that a literal is about, if it is about one.
    pub fn tester_of(&self, lit: u32) -> Option<TesterApp> {
        self.terms.tester_app(atom::atom(&self.atoms, lit as usize / 2))
    }

    /// Literals of other atoms give no record.
    pub fn assert(&mut self, lit: u32) -> Option<Vec<Leaf>> {
        let x = self.tester_of(lit)?;
        if is_positive(lit) {
            let conflict = self.tester_conflict(lit, &x);
            self.record_tester(x.app, lit);
            conflict
        } else {
            let conflict = self.negative_conflict(lit, &x);
            self.record_negative(x.app, lit);
            conflict
        }
    }
}

pub fn is_positive(lit: u32) -> bool {
    lit % 2 == 0
}
