//! Rules.antt and Check.antt: the rules of a full check, each as in the definition, and their order. What a rule made
//! and marked stays when it gives no answer.

use super::atom::var_of_atom;
use super::context::{Context, CtorApp, SelApp, TesterApp};
use super::eq_engine::firsts;
use super::state::{insert, mem, AssertedAtom, State};
use crate::answer::{Answer, Leaf};

/// Each element with each later one, by the earlier and then the later.
fn pairs<T>(items: &[T]) -> impl Iterator<Item = (&T, &T)> {
    items.iter().enumerate().flat_map(|(place, p)| items[place + 1..].iter().map(move |q| (p, q)))
}

impl State {
    /// The first pair with different constructors in one class; the lower is explained to the higher.
    fn constructor_clash(&self) -> Option<Answer> {
        let ctors: Vec<CtorApp> = self.ctor_apps().collect();
        let (p, q) = pairs(&ctors).find(|(p, q)| p.ctor != q.ctor && self.equal(p.app, q.app))?;
        Some(Answer::Conflict(firsts(self.eq.explain(p.app, q.app))))
    }

    /// The first conflict of a record's entries.
    fn clash_of(
        &self,
        record: &[AssertedAtom],
        conflict: impl Fn(&State, u32, &TesterApp) -> Option<Vec<Leaf>>,
    ) -> Option<Answer> {
        record.iter().find_map(|e| conflict(self, e.lit, &self.terms.tester_app(e.atom)?)).map(Answer::Conflict)
    }

    fn tester_clash(&self) -> Option<Answer> {
        self.clash_of(&self.dt.level_record, State::tester_conflict)
    }

    fn negative_clash(&self) -> Option<Answer> {
        self.clash_of(&self.dt.negative_record, State::negative_conflict)
    }

    /// The first entry of the record whose sides are equal now.
    fn disequality_clash(&self) -> Option<Answer> {
        self.dt.disequalities.iter().find_map(|e| self.disequality_conflict(e.lit, e.atom)).map(Answer::Conflict)
    }

    fn instantiate_injectivity_selectors(&mut self) {
        let ctors: Vec<CtorApp> = self.ctor_apps().collect();
        for (p, q) in pairs(&ctors) {
            if p.ctor == q.ctor && self.equal(p.app, q.app) {
                for sel in self.terms.dt_selectors(p.ctor) {
                    self.mint(sel, &[p.app]);
                    self.mint(sel, &[q.app]);
                }
            }
        }
    }

    /// Collapse, tester lemma and instantiation pass over an atom that any of them has handed out.
    fn hand_out(&mut self, lemma: usize, guards: Vec<u32>) -> Option<Answer> {
        insert(&mut self.dt.emitted, lemma).then(|| Answer::Split { atoms: vec![lemma], guards, phases: Vec::new() })
    }

    fn collapse_at(&mut self, x: &SelApp, c: &CtorApp) -> Option<Answer> {
        if c.ctor != x.ctor || !self.equal(x.arg, c.app) {
            return None;
        }
        let field = c.fields[x.index];
        let selected = self.make_app(x.selector, &[c.app]);
        if self.equal(selected, field) {
            return None;
        }
        let lemma = self.terms.mk_eq(selected, field);
        self.hand_out(lemma, Vec::new())
    }

    fn collapse_lemma(&mut self) -> Option<Answer> {
        let (ctors, sels): (Vec<CtorApp>, Vec<SelApp>) = (self.ctor_apps().collect(), self.sel_apps().collect());
        sels.iter().find_map(|x| ctors.iter().find_map(|c| self.collapse_at(x, c)))
    }

    fn tester_lemma_at(&mut self, x: &TesterApp, c: &CtorApp) -> Option<Answer> {
        if c.ctor != x.ctor || !self.equal(x.arg, c.app) {
            return None;
        }
        let lemma = self.make_app(x.tester, &[c.app]);
        self.hand_out(lemma, Vec::new())
    }

    fn tester_lemma(&mut self) -> Option<Answer> {
        let (ctors, testers): (Vec<CtorApp>, Vec<TesterApp>) = (self.ctor_apps().collect(), self.testers().collect());
        testers.iter().find_map(|x| ctors.iter().find_map(|c| self.tester_lemma_at(x, c)))
    }

    /// The selectors on the term and the constructor over them are made and marked; the atom equates term and
    /// application.
    fn instantiate(&mut self, x: &TesterApp) -> Option<Answer> {
        let selectors = self.terms.dt_selectors(x.ctor);
        let fields: Vec<usize> = selectors.into_iter().map(|sel| self.mint(sel, &[x.arg])).collect();
        let app = self.mint(x.ctor, &fields);
        let lemma = self.terms.mk_eq(x.arg, app);
        let guard = 2 * var_of_atom(&self.atoms, x.app)? as u32 + 1;
        self.hand_out(lemma, vec![guard])
    }

    fn instantiate_at(&mut self, atom: usize) -> Option<Answer> {
        let x = self.terms.tester_app(atom)?;
        match self.ctor_of_class(x.arg) {
            Some(_) => None,
            None => self.instantiate(&x),
        }
    }

    /// By atom of the lasting record whose term's class has no marked constructor application.
    fn instantiate_constructor(&mut self) -> Option<Answer> {
        let lasting = self.dt.lasting.clone();
        lasting.into_iter().find_map(|atom| self.instantiate_at(atom))
    }

    fn split_on(&mut self, t: usize) -> Answer {
        insert(&mut self.dt.split_done, t);
        let ctors = self.terms.dt_constructors(self.terms.sort_of(t));
        let phase = |&c: &usize| self.terms.symbols[c].params.is_empty().then_some(true);
        let phases = ctors.iter().map(phase).collect();
        let atoms = ctors.into_iter().map(|c| self.make_app(Context::dt_tester(c), &[t])).collect();
        Answer::Split { atoms, guards: Vec::new(), phases }
    }

    /// The lowest watched term whose class has no marked constructor application and that was not split on.
    fn exhaustiveness_split(&mut self) -> Option<Answer> {
        let to_split = |&t: &usize| !mem(t, &self.dt.split_done) && self.ctor_of_class(t).is_none();
        let t = self.watched_dt_terms().find(to_split)?;
        Some(self.split_on(t))
    }

    fn unknown_fence(&self) -> Option<Answer> {
        let undetermined = self.watched_dt_terms().any(|t| self.ctor_of_class(t).is_none());
        undetermined.then_some(Answer::Unknown)
    }

    fn before_ring(&mut self) -> Option<Answer> {
        let clash = self
            .constructor_clash()
            .or_else(|| self.tester_clash())
            .or_else(|| self.negative_clash())
            .or_else(|| self.disequality_clash());
        if clash.is_some() {
            return clash;
        }
        self.instantiate_injectivity_selectors();
        self.collapse_lemma()
            .or_else(|| self.tester_lemma())
            .or_else(|| self.instantiate_constructor())
            .or_else(|| self.exhaustiveness_split())
            .or_else(|| self.unknown_fence())
    }

    fn full_check(&mut self) -> Answer {
        self.before_ring().unwrap_or_else(|| self.ring_answer())
    }

    /// Not full: `sat=1`, nothing done.
    pub fn check(&mut self, full: bool) -> Answer {
        if full {
            self.full_check()
        } else {
            Answer::Sat
        }
    }
}
