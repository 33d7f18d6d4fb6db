//! The session: questions 4 to 11 and 13 over the published solver. `check` and `assert` answers come from `DtSolver`,
//! equality from `EqualityEngine`, terms from `Context`. It is given no script with a negative tester or with unequal
//! terms, and breaks off at either.

use crate::answer::{Answer, Leaf};
use crate::run::Answers;
use crate::script::{self, Line};
use rustc_hash::FxHasher;
use shinri_core::{BuiltinOp, Context, DtRole, Lit, Op, SortId, SymbolId, TermId, TermNode, TheoryJust, Var};
use shinri_dt::DtSolver;
use shinri_sat::Effort;
use shinri_theory::types::{EqJust, EqLeaf, MergeEvent, Owner};
use shinri_theory::{AtomRegistry, ENodeId, EqualityEngine, TCheck, TheoryCtx, TheorySolver};
use std::collections::HashSet;
use std::hash::BuildHasherDefault;

pub const MOST_SORTS: usize = 64;
pub const MOST_SYMBOLS: usize = 512;
pub const MOST_TERMS: usize = 1_024;
pub const MOST_PLACES: usize = 4_096;
pub const MOST_PAIRS: usize = 2_048;
pub const MOST_LEVELS: usize = 64;
pub const MOST_VARIABLES: u32 = 1_024;

/// The number of the question that was answered with no.
type Refusal = u32;

#[derive(Default)]
pub struct Session {
    terms: Context,
    eq: EqualityEngine,
    atoms: AtomRegistry,
    dt: DtSolver,
    sorts: Vec<SortId>,
    symbols: Vec<SymbolId>,
    closed: bool,
    term_count: usize,
    places: usize,
    pairs: usize,
    /// The pairs in force when each open level began.
    pairs_before: Vec<usize>,
    /// The accepted lines, each with an LF, to build the session again after a refused check.
    accepted: Vec<u8>,
    /// A copy of the table, asked for terms when there is no room, with the count of terms that it was made of.
    copy: Option<(usize, Context)>,
    /// Lists that are filled anew for a line, kept for their room: arguments, argument pairs, merge events.
    arguments: Vec<TermId>,
    argument_pairs: Vec<(ENodeId, ENodeId)>,
    events: Vec<MergeEvent>,
}

impl Answers for Session {
    fn answer(&mut self, line: &[u8]) -> Answer {
        let Some(read) = script::read(line) else {
            return Answer::Refused(3);
        };
        match self.obey(&read) {
            Ok(answer) => {
                self.accepted.extend_from_slice(line);
                self.accepted.push(b'\n');
                answer
            }
            Err(question) => Answer::Refused(question),
        }
    }
}

impl Session {
    pub fn new() -> Session {
        let mut session = Session::default();
        session.sorts.push(session.terms.bool_sort());
        session
    }

    fn obey(&mut self, line: &Line) -> Result<Answer, Refusal> {
        let declares = matches!(line, Line::Sort { .. } | Line::Ctor { .. } | Line::Fun { .. } | Line::Close);
        ensure(declares != self.closed, 4)?;
        match line {
            Line::Sort { datatype } => self.declare_sort(*datatype),
            Line::Ctor { sort, fields } => self.declare_constructor(*sort, fields),
            Line::Fun { result, arguments } => self.declare_function(*result, arguments),
            Line::Close => self.close(),
            Line::Term { symbol, arguments } => self.make_application(*symbol, arguments),
            Line::Eq(t, u) => self.make_equation(*t, *u),
            Line::Var { variable, atom } => self.register(*variable, *atom),
            Line::Equate(literal) => self.equate(*literal),
            Line::Cong(t, u) => self.join_congruent(*t, *u),
            Line::Iface { sides, theory, tag } => {
                self.join_by_interface(*sides, TheoryJust { theory: *theory, tag: *tag })
            }
            Line::Assert(literal) => self.assert(*literal),
            Line::Push => self.push(),
            Line::Pop(level) => self.pop(*level),
            Line::Differ(literal) => self.differ(*literal),
            Line::Check { full } => self.check(*full),
        }
    }

    fn declare_sort(&mut self, datatype: bool) -> Result<Answer, Refusal> {
        ensure(self.sorts.len() < MOST_SORTS, 11)?;
        let name = format!("sort{}", self.sorts.len());
        self.sorts.push(if datatype {
            self.terms.declare_datatype_sort(&name)
        } else {
            self.terms.declare_sort(&name)
        });
        Ok(Answer::Ok)
    }

    fn declare_constructor(&mut self, sort: u32, fields: &[u32]) -> Result<Answer, Refusal> {
        let datatype = self.sort(sort)?;
        let fields = self.sorts_of(fields)?;
        ensure(self.terms.is_datatype_sort(datatype), 6)?;
        ensure(self.symbols.len() + 2 + fields.len() <= MOST_SYMBOLS, 11)?;
        let constructor = self.declare_symbol(&fields, datatype);
        let tester = self.declare_symbol(&[datatype], self.terms.bool_sort());
        let selectors: Vec<SymbolId> = fields.iter().map(|&field| self.declare_symbol(&[datatype], field)).collect();
        self.terms.dt_add_constructor(datatype, constructor, &selectors, tester);
        Ok(Answer::Ok)
    }

    fn declare_function(&mut self, result: u32, arguments: &[u32]) -> Result<Answer, Refusal> {
        let result = self.sort(result)?;
        let arguments = self.sorts_of(arguments)?;
        ensure(self.symbols.len() < MOST_SYMBOLS, 11)?;
        self.declare_symbol(&arguments, result);
        Ok(Answer::Ok)
    }

    fn declare_symbol(&mut self, arguments: &[SortId], result: SortId) -> SymbolId {
        let name = format!("symbol{}", self.symbols.len());
        let symbol = self.terms.declare_fun(&name, arguments, result);
        self.symbols.push(symbol);
        symbol
    }

    fn close(&mut self) -> Result<Answer, Refusal> {
        let is_datatype = |&sort: &SortId| self.terms.is_datatype_sort(sort);
        let datatypes: Vec<SortId> = self.sorts.iter().copied().filter(is_datatype).collect();
        ensure(self.terms.dt_first_ill_founded(&datatypes).is_none(), 10)?;
        self.closed = true;
        Ok(Answer::Ok)
    }

    fn make_application(&mut self, symbol: u32, arguments: &[u32]) -> Result<Answer, Refusal> {
        let symbol = *self.symbols.get(symbol as usize).ok_or(5u32)?;
        let mut terms = std::mem::take(&mut self.arguments);
        terms.clear();
        for &t in arguments {
            terms.push(self.term(t)?);
        }
        let answer = self.make(Op::Uninterpreted(symbol), &terms);
        self.arguments = terms;
        answer
    }

    fn make_equation(&mut self, t: u32, u: u32) -> Result<Answer, Refusal> {
        let sides = [self.term(t)?, self.term(u)?];
        ensure(sides[0] != sides[1], 6)?;
        self.make(Op::Builtin(BuiltinOp::Eq), &sides)
    }

    fn make(&mut self, op: Op, arguments: &[TermId]) -> Result<Answer, Refusal> {
        let room = self.term_count < MOST_TERMS && self.places + arguments.len() <= MOST_PLACES;
        if !room {
            // Only an existing term may be named now; a copy tells whether it exists and leaves the table alone.
            let t = self.copy_of_terms().mk_app(op, arguments).map_err(|_| 6u32)?;
            ensure(t.index() < self.term_count, 11)?;
        }
        let t = self.terms.mk_app(op, arguments).map_err(|_| 6u32)?;
        self.count_new_terms();
        Ok(Answer::Term(t.index()))
    }

    /// A copy of the table, made anew when terms were added; terms made in it meanwhile have numbers from the count on.
    fn copy_of_terms(&mut self) -> &mut Context {
        let outdated = !matches!(&self.copy, Some((count, _)) if *count == self.term_count);
        if outdated {
            self.copy = Some((self.term_count, self.terms.clone()));
        }
        &mut self.copy.as_mut().expect("made above").1
    }

    /// Counts the terms made since the last count, and their argument places. The published argument arena also
    /// grows for a repeated term, so places are counted over the terms.
    fn count_new_terms(&mut self) {
        while let Some(t) = self.existing_term(self.term_count) {
            self.places += self.arguments(t).len();
            self.term_count += 1;
        }
    }

    fn register(&mut self, variable: u32, atom: u32) -> Result<Answer, Refusal> {
        let atom = self.term(atom)?;
        ensure(variable < MOST_VARIABLES, 5)?;
        ensure(self.terms.sort_of(atom) == self.terms.bool_sort(), 6)?;
        let variable = Var::new(variable);
        ensure(!self.atoms.is_registered(variable), 7)?;
        self.atoms.register(variable, atom, Owner::Datatypes);
        let (dt, mut cx) = self.solver();
        dt.new_var(&mut cx, variable, atom);
        Ok(Answer::Ok)
    }

    fn equate(&mut self, literal: u32) -> Result<Answer, Refusal> {
        let literal = self.literal(literal)?;
        let atom = self.atoms.atom(literal.var());
        ensure(literal.is_positive() && self.is_equation(atom), 8)?;
        let (t, u) = (self.arguments(atom)[0], self.arguments(atom)[1]);
        self.merge(t, u, EqJust::Asserted(literal));
        Ok(Answer::Ok)
    }

    fn join_congruent(&mut self, t: u32, u: u32) -> Result<Answer, Refusal> {
        let (t, u) = (self.term(t)?, self.term(u)?);
        ensure(self.operation(t) == self.operation(u), 9)?;
        self.pair_arguments(t, u);
        ensure(self.argument_pairs.iter().all(|&(a, b)| self.eq.are_equal(a, b)), 9)?;
        let (a, b) = (self.eq.intern(t), self.eq.intern(u));
        // The published engine keeps the pairs of a merge that joins nothing too; here they take no room.
        if !self.eq.are_equal(a, b) {
            let pairs = self.pairs + self.argument_pairs.len();
            ensure(pairs <= MOST_PAIRS, 11)?;
            self.pairs = pairs;
            self.eq.merge_congruence(a, b, &self.argument_pairs).expect("no disequalities");
            self.take_events();
        }
        Ok(Answer::Ok)
    }

    /// The argument pairs of two applications of one operation.
    fn pair_arguments(&mut self, t: TermId, u: TermId) {
        self.argument_pairs.clear();
        let (left, right) = (arguments(&self.terms, t), arguments(&self.terms, u));
        for (&a, &b) in left.iter().zip(right) {
            self.argument_pairs.push((self.eq.intern(a), self.eq.intern(b)));
        }
    }

    /// The published `pop` asserts that the merge events were taken.
    fn take_events(&mut self) {
        self.eq.drain_merges(&mut self.events);
        self.events.clear();
    }

    fn join_by_interface(&mut self, sides: (u32, u32), leaf: TheoryJust) -> Result<Answer, Refusal> {
        let (t, u) = (self.term(sides.0)?, self.term(sides.1)?);
        ensure(self.terms.sort_of(t) == self.terms.sort_of(u), 6)?;
        self.merge(t, u, EqJust::Interface(leaf));
        Ok(Answer::Ok)
    }

    fn merge(&mut self, t: TermId, u: TermId, label: EqJust) {
        let (a, b) = (self.eq.intern(t), self.eq.intern(u));
        self.eq.merge(a, b, label).expect("no disequalities");
        self.take_events();
    }

    fn assert(&mut self, literal: u32) -> Result<Answer, Refusal> {
        let literal = self.literal(literal)?;
        // Asked of the published table, so that the definition's view alone does not decide who answers a script.
        let denies = !literal.is_positive() && self.is_tester(self.atoms.atom(literal.var()));
        assert!(!denies, "a negative tester was given to the published Rust");
        let (dt, mut cx) = self.solver();
        Ok(match dt.assert(&mut cx, literal) {
            None => Answer::Ok,
            Some(leaves) => Answer::Conflict(first_occurrences(&leaves)),
        })
    }

    /// The published Rust has no such line, so it answers only those that are refused.
    fn differ(&self, literal: u32) -> Result<Answer, Refusal> {
        let literal = self.literal(literal)?;
        ensure(!literal.is_positive() && self.is_equation(self.atoms.atom(literal.var())), 13)?;
        panic!("unequal terms were given to the published Rust");
    }

    fn push(&mut self) -> Result<Answer, Refusal> {
        ensure(self.eq.level() < MOST_LEVELS, 11)?;
        self.eq.push();
        self.dt.push();
        self.pairs_before.push(self.pairs);
        Ok(Answer::Ok)
    }

    fn pop(&mut self, level: u32) -> Result<Answer, Refusal> {
        let level = level as usize;
        // The published `UndoLog` asserts that the level is not above its own.
        if level < self.eq.level() {
            self.eq.pop(level);
            self.dt.pop(level);
            self.pairs = self.pairs_before[level];
            self.pairs_before.truncate(level);
        }
        Ok(Answer::Ok)
    }

    fn check(&mut self, full: bool) -> Result<Answer, Refusal> {
        let effort = if full { Effort::Full } else { Effort::Standard };
        let (dt, mut cx) = self.solver();
        let result = dt.check(&mut cx, effort);
        self.count_new_terms();
        if self.term_count > MOST_TERMS || self.places > MOST_PLACES {
            self.rebuild();
            return Err(11);
        }
        Ok(check_answer(result))
    }

    /// Undoes a refused check. The published solver cannot be copied, so the accepted lines are obeyed anew.
    fn rebuild(&mut self) {
        let accepted = std::mem::take(&mut self.accepted);
        *self = Session::new();
        for line in script::lines(&accepted) {
            let line = script::read(line).expect("accepted before");
            self.obey(&line).expect("accepted before");
        }
        self.accepted = accepted;
    }

    fn solver(&mut self) -> (&mut DtSolver, TheoryCtx<'_>) {
        (&mut self.dt, TheoryCtx { terms: &mut self.terms, eq: &mut self.eq, atoms: &self.atoms })
    }

    fn sort(&self, number: u32) -> Result<SortId, Refusal> {
        self.sorts.get(number as usize).copied().ok_or(5)
    }

    fn sorts_of(&self, numbers: &[u32]) -> Result<Vec<SortId>, Refusal> {
        numbers.iter().map(|&number| self.sort(number)).collect()
    }

    fn term(&self, number: u32) -> Result<TermId, Refusal> {
        self.existing_term(number as usize).ok_or(5)
    }

    fn existing_term(&self, index: usize) -> Option<TermId> {
        let t = TermId::new(u32::try_from(index + 1).ok()?)?;
        self.terms.contains_term(t).then_some(t)
    }

    fn literal(&self, code: u32) -> Result<Lit, Refusal> {
        let literal = Lit::from_code(code);
        ensure(self.atoms.is_registered(literal.var()), 5)?;
        Ok(literal)
    }

    fn operation(&self, t: TermId) -> Op {
        match self.terms.term_node(t) {
            TermNode::App { op, .. } => *op,
            TermNode::Const { .. } => unreachable!("a script has no constants"),
        }
    }

    fn is_equation(&self, t: TermId) -> bool {
        self.operation(t) == Op::Builtin(BuiltinOp::Eq)
    }

    fn is_tester(&self, t: TermId) -> bool {
        match self.operation(t) {
            Op::Uninterpreted(symbol) => matches!(self.terms.dt_role(symbol), Some(DtRole::Tester { .. })),
            _ => false,
        }
    }

    fn arguments(&self, t: TermId) -> &[TermId] {
        arguments(&self.terms, t)
    }
}

fn arguments(terms: &Context, t: TermId) -> &[TermId] {
    match terms.term_node(t) {
        TermNode::App { args, .. } => terms.children(*args),
        TermNode::Const { .. } => unreachable!("a script has no constants"),
    }
}

fn ensure(yes: bool, question: u32) -> Result<(), Refusal> {
    if yes {
        Ok(())
    } else {
        Err(question)
    }
}

fn check_answer(result: TCheck) -> Answer {
    match result {
        TCheck::Sat => Answer::Sat,
        TCheck::Unknown => Answer::Unknown,
        TCheck::Conflict(leaves) => Answer::Conflict(first_occurrences(&leaves)),
        TCheck::Split { atoms, guards, phases } => Answer::Split {
            atoms: atoms.into_iter().map(TermId::index).collect(),
            guards: guards.into_iter().map(Lit::code).collect(),
            phases,
        },
    }
}

fn first_occurrences(leaves: &[EqLeaf]) -> Vec<Leaf> {
    let mut met: HashSet<Leaf, BuildHasherDefault<FxHasher>> = HashSet::default();
    met.reserve(leaves.len());
    let mut kept = Vec::with_capacity(leaves.len());
    for leaf in leaves {
        let leaf = match leaf {
            EqLeaf::Asserted(literal) => Leaf::Literal(literal.code()),
            EqLeaf::Interface(just) => Leaf::Interface { theory: just.theory, tag: just.tag },
        };
        if met.insert(leaf) {
            kept.push(leaf);
        }
    }
    kept
}
