//! Context.antt, with Sort.antt and Term.antt: declarations and terms.

use std::collections::HashMap;
use std::rc::Rc;

#[derive(Clone, Copy, PartialEq, Eq)]
pub enum SortNode {
    Bool,
    Datatype,
    Uninterpreted,
}

#[derive(Clone, Copy, PartialEq, Eq)]
pub enum Role {
    Constructor,
    Tester { ctor: usize },
    Selector { ctor: usize, index: usize },
    Function,
}

#[derive(Clone)]
pub struct Symbol {
    pub role: Role,
    pub params: Rc<[usize]>,
    pub result: usize,
}

#[derive(Clone, Copy, PartialEq, Eq, Hash)]
pub enum Op {
    Eq,
    Uninterpreted(usize),
}

#[derive(Clone, PartialEq, Eq, Hash)]
pub struct Term {
    pub op: Op,
    pub args: Rc<[usize]>,
}

#[derive(Clone)]
pub struct Context {
    pub sorts: Vec<SortNode>,
    pub symbols: Vec<Symbol>,
    pub terms: Vec<Term>,
    /// The number of each term, which a search through the terms would find too.
    numbers: HashMap<Term, usize>,
}

pub struct CtorApp {
    pub app: usize,
    pub ctor: usize,
    pub fields: Rc<[usize]>,
}

pub struct SelApp {
    pub selector: usize,
    pub ctor: usize,
    pub index: usize,
    pub arg: usize,
}

pub struct TesterApp {
    pub app: usize,
    pub tester: usize,
    pub ctor: usize,
    pub arg: usize,
}

impl Context {
    pub fn empty() -> Context {
        Context { sorts: vec![SortNode::Bool], symbols: Vec::new(), terms: Vec::new(), numbers: HashMap::new() }
    }

    /// A constructor takes symbols for itself, its tester and each selector, in this order.
    pub fn dt_add_constructor(&mut self, dt: usize, fields: &[usize]) {
        let ctor = self.symbols.len();
        self.symbols.push(Symbol { role: Role::Constructor, params: fields.into(), result: dt });
        self.symbols.push(Symbol { role: Role::Tester { ctor }, params: [dt].into(), result: 0 });
        for (index, &field) in fields.iter().enumerate() {
            self.symbols.push(Symbol { role: Role::Selector { ctor, index }, params: [dt].into(), result: field });
        }
    }

    pub fn declare_fun(&mut self, result: usize, params: &[usize]) {
        self.symbols.push(Symbol { role: Role::Function, params: params.into(), result });
    }

    pub fn is_datatype_sort(&self, sort: usize) -> bool {
        self.sorts[sort] == SortNode::Datatype
    }

    /// The constructors of a datatype, as declared.
    pub fn dt_constructors(&self, dt: usize) -> Vec<usize> {
        let builds = |symbol: &Symbol| symbol.role == Role::Constructor && symbol.result == dt;
        (0..self.symbols.len()).filter(|&s| builds(&self.symbols[s])).collect()
    }

    pub fn dt_tester(ctor: usize) -> usize {
        ctor + 1
    }

    pub fn dt_selectors(&self, ctor: usize) -> Vec<usize> {
        (0..self.symbols[ctor].params.len()).map(|index| ctor + 2 + index).collect()
    }

    pub fn datatypes(&self) -> Vec<usize> {
        (0..self.sorts.len()).filter(|&sort| self.is_datatype_sort(sort)).collect()
    }

    /// Are all fields of a constructor of other sorts or of datatypes already found?
    fn has_ready_fields(&self, c: usize, found: &[usize]) -> bool {
        self.symbols[c].params.iter().all(|field| !self.is_datatype_sort(*field) || found.contains(field))
    }

    fn grounded(&self, dt: usize, found: &[usize]) -> bool {
        self.dt_constructors(dt).into_iter().any(|c| self.has_ready_fields(c, found))
    }

    /// The datatypes grounded by those already found.
    fn round(&self, found: &[usize]) -> Vec<usize> {
        self.datatypes().into_iter().filter(|&dt| self.grounded(dt, found)).collect()
    }

    /// The datatypes found by so many rounds, starting from none.
    pub fn rounds(&self, n: usize) -> Vec<usize> {
        (0..n).fold(Vec::new(), |found, _| self.round(&found))
    }

    /// As many rounds as there are sorts: a round that adds no datatype is followed by none that does.
    pub fn inhabited_datatypes(&self) -> Vec<usize> {
        self.rounds(self.sorts.len())
    }

    /// Question 10.
    pub fn all_grounded(&self) -> bool {
        let inhabited = self.inhabited_datatypes();
        self.datatypes().iter().all(|dt| inhabited.contains(dt))
    }

    pub fn children(&self, t: usize) -> &[usize] {
        &self.terms[t].args
    }

    pub fn sort_of(&self, t: usize) -> usize {
        match self.terms[t].op {
            Op::Eq => 0,
            Op::Uninterpreted(s) => self.symbols[s].result,
        }
    }

    /// An existing term gives its old number.
    pub fn mk_app(&mut self, op: Op, args: &[usize]) -> usize {
        let term = Term { op, args: args.into() };
        if let Some(&t) = self.numbers.get(&term) {
            return t;
        }
        let t = self.terms.len();
        self.terms.push(term.clone());
        self.numbers.insert(term, t);
        t
    }

    /// The two sides are kept as given.
    pub fn mk_eq(&mut self, a: usize, b: usize) -> usize {
        self.mk_app(Op::Eq, &[a, b])
    }

    /// Argument places of terms.
    pub fn places(&self) -> usize {
        self.terms.iter().map(|term| term.args.len()).sum()
    }

    /// The role of a term's symbol; an equation has none.
    pub fn role_of(&self, t: usize) -> Option<(usize, Role)> {
        match self.terms[t].op {
            Op::Eq => None,
            Op::Uninterpreted(s) => Some((s, self.symbols[s].role)),
        }
    }

    pub fn ctor_app(&self, t: usize) -> Option<CtorApp> {
        match self.role_of(t)? {
            (ctor, Role::Constructor) => Some(CtorApp { app: t, ctor, fields: self.terms[t].args.clone() }),
            _ => None,
        }
    }

    pub fn sel_app(&self, t: usize) -> Option<SelApp> {
        match self.role_of(t)? {
            (selector, Role::Selector { ctor, index }) => {
                Some(SelApp { selector, ctor, index, arg: self.children(t)[0] })
            }
            _ => None,
        }
    }

    pub fn tester_app(&self, t: usize) -> Option<TesterApp> {
        match self.role_of(t)? {
            (tester, Role::Tester { ctor }) => Some(TesterApp { app: t, tester, ctor, arg: self.children(t)[0] }),
            _ => None,
        }
    }
}
