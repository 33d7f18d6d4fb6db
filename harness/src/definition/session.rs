//! Session.antt: the questions 4 to 11 and 13 in order, what an accepted line does, and one step.

use super::atom::{self, Registered};
use super::context::{Op, Role, SortNode};
use super::eq_engine::{firsts, EqJust};
use super::records::{is_positive, pop_entries};
use super::state::State;
use crate::answer::{Answer, Leaf};
use crate::run::Answers;
use crate::script::{self, Line};
use crate::session::{MOST_LEVELS, MOST_PAIRS, MOST_PLACES, MOST_SORTS, MOST_SYMBOLS, MOST_TERMS, MOST_VARIABLES};

#[derive(Clone)]
pub struct Session {
    state: State,
    closed: bool,
    /// No part of the definition.
    beyond: Beyond,
}

/// What the lines accepted so far have that the published Rust is not given.
#[derive(Clone, Copy, Default)]
pub struct Beyond {
    /// A negative literal of a tester application was asserted.
    pub negative_tester: bool,
    /// A `differ` line was accepted.
    pub unequal_terms: bool,
}

impl Beyond {
    pub fn any(self) -> bool {
        self.negative_tester || self.unequal_terms
    }
}

/// The number of the question that was answered with no.
type Refusal = u32;

fn ask(yes: bool, question: u32) -> Result<(), Refusal> {
    if yes {
        Ok(())
    } else {
        Err(question)
    }
}

/// 5. Does each named sort, symbol, term and literal's variable exist, and is V in `var` below 1,024?
fn exist(yes: bool) -> Result<(), Refusal> {
    ask(yes, 5)
}

/// 6. Do sorts and argument counts agree?
fn agree(yes: bool) -> Result<(), Refusal> {
    ask(yes, 6)
}

fn numbers(list: &[u32]) -> Vec<usize> {
    list.iter().map(|&number| number as usize).collect()
}

impl Answers for Session {
    /// The first no refuses the line, and the session is as before it.
    fn answer(&mut self, line: &[u8]) -> Answer {
        let Some(line) = script::read(line) else {
            return Answer::Refused(3);
        };
        if let Err(question) = self.questions(&line) {
            return Answer::Refused(question);
        }
        let mut after = self.clone();
        let answer = after.perform(&line);
        if !after.fits() {
            return Answer::Refused(11);
        }
        *self = after;
        answer
    }
}

impl Session {
    pub fn new() -> Session {
        Session { state: State::empty(), closed: false, beyond: Beyond::default() }
    }

    pub fn beyond(&self) -> Beyond {
        self.beyond
    }

    fn sort_exists(&self, x: u32) -> bool {
        (x as usize) < self.state.terms.sorts.len()
    }

    fn sorts_exist(&self, list: &[u32]) -> bool {
        list.iter().all(|&x| self.sort_exists(x))
    }

    fn symbol_exists(&self, x: u32) -> bool {
        (x as usize) < self.state.terms.symbols.len()
    }

    fn terms_exist(&self, list: &[u32]) -> bool {
        list.iter().all(|&x| (x as usize) < self.state.terms.terms.len())
    }

    fn var_exists(&self, lit: u32) -> bool {
        atom::is_registered(&self.state.atoms, lit as usize / 2)
    }

    fn op(&self, t: usize) -> Op {
        self.state.terms.terms[t].op
    }

    /// The argument pairs of two applications, in order.
    fn argument_pairs(&self, t: u32, u: u32) -> Vec<(usize, usize)> {
        let cx = &self.state.terms;
        cx.children(t as usize).iter().copied().zip(cx.children(u as usize).iter().copied()).collect()
    }

    /// 4. Do `sort`, `ctor`, `fun`, `close` come before an accepted `close`, all else after?
    fn before_close(&self) -> Result<(), Refusal> {
        ask(!self.closed, 4)
    }

    fn after_close(&self) -> Result<(), Refusal> {
        ask(self.closed, 4)
    }

    fn one_sort(&self, t: u32, u: u32) -> bool {
        self.sort_of(t as usize) == self.sort_of(u as usize)
    }

    /// 7. For `var`: is V unregistered?
    fn unregistered(&self, variable: u32) -> Result<(), Refusal> {
        ask(!atom::is_registered(&self.state.atoms, variable as usize), 7)
    }

    /// 8. For `equate`: is L positive and its atom an equation?
    fn equation(&self, lit: u32) -> Result<(), Refusal> {
        ask(is_positive(lit) && self.is_equation(lit), 8)
    }

    /// 13, asked after 8. For `differ`: is L negative and its atom an equation?
    fn disequality(&self, lit: u32) -> Result<(), Refusal> {
        ask(!is_positive(lit) && self.is_equation(lit), 13)
    }

    /// 9. For `cong`: same operation, and each argument pair equal now?
    fn congruent(&self, t: u32, u: u32) -> Result<(), Refusal> {
        let same_op = self.op(t as usize) == self.op(u as usize);
        ask(same_op && self.argument_pairs(t, u).iter().all(|&(a, b)| self.state.equal(a, b)), 9)
    }

    /// 10. For `close`: is each datatype inhabited?
    fn inhabited(&self) -> Result<(), Refusal> {
        ask(self.state.terms.all_grounded(), 10)
    }

    /// The questions 4 to 10 and 13 that concern a line, in order.
    fn questions(&self, line: &Line) -> Result<(), Refusal> {
        match line {
            Line::Sort { .. } => self.before_close(),
            Line::Ctor { sort, fields } => {
                self.before_close()?;
                exist(self.sort_exists(*sort) && self.sorts_exist(fields))?;
                agree(self.state.terms.is_datatype_sort(*sort as usize))
            }
            Line::Fun { result, arguments } => {
                self.before_close()?;
                exist(self.sort_exists(*result) && self.sorts_exist(arguments))
            }
            Line::Close => {
                self.before_close()?;
                self.inhabited()
            }
            Line::Term { symbol, arguments } => {
                self.after_close()?;
                exist(self.symbol_exists(*symbol) && self.terms_exist(arguments))?;
                let sorts: Vec<usize> = arguments.iter().map(|&t| self.sort_of(t as usize)).collect();
                agree(*sorts == *self.state.terms.symbols[*symbol as usize].params)
            }
            Line::Eq(t, u) => {
                self.after_close()?;
                exist(self.terms_exist(&[*t, *u]))?;
                agree(t != u && self.one_sort(*t, *u))
            }
            Line::Var { variable, atom } => {
                self.after_close()?;
                exist(*variable < MOST_VARIABLES && self.terms_exist(&[*atom]))?;
                agree(self.sort_of(*atom as usize) == 0)?;
                self.unregistered(*variable)
            }
            Line::Equate(lit) => {
                self.after_close()?;
                exist(self.var_exists(*lit))?;
                self.equation(*lit)
            }
            Line::Cong(t, u) => {
                self.after_close()?;
                exist(self.terms_exist(&[*t, *u]))?;
                self.congruent(*t, *u)
            }
            Line::Iface { sides: (t, u), .. } => {
                self.after_close()?;
                exist(self.terms_exist(&[*t, *u]))?;
                agree(self.one_sort(*t, *u))
            }
            Line::Assert(lit) => {
                self.after_close()?;
                exist(self.var_exists(*lit))
            }
            Line::Differ(lit) => {
                self.after_close()?;
                exist(self.var_exists(*lit))?;
                self.disequality(*lit)
            }
            Line::Push | Line::Pop(_) | Line::Check { .. } => self.after_close(),
        }
    }

    fn merged(&mut self, t: u32, u: u32, just: EqJust) -> Answer {
        self.state.eq.merge(self.state.level, t as usize, u as usize, just);
        Answer::Ok
    }

    fn merge_sides(&mut self, lit: u32) -> Answer {
        let sides = self.arguments_of(self.atom_of(lit / 2));
        self.merged(sides[0] as u32, sides[1] as u32, EqJust::Leaf(Leaf::Literal(lit)))
    }

    fn assert(&mut self, lit: u32) -> Answer {
        self.beyond.negative_tester |= self.is_negative_tester(lit);
        self.state.assert(lit).map_or(Answer::Ok, Answer::Conflict)
    }

    fn differ(&mut self, lit: u32) -> Answer {
        self.beyond.unequal_terms = true;
        self.state.differ(lit);
        Answer::Ok
    }

    /// K at or above the level count changes nothing.
    fn pop_to(&mut self, k: usize) -> Answer {
        let state = &mut self.state;
        if k < state.level {
            state.level = k;
            state.eq.pop_merges(k);
            pop_entries(k, &mut state.dt.level_record);
            pop_entries(k, &mut state.dt.negative_record);
            pop_entries(k, &mut state.dt.disequalities);
        }
        Answer::Ok
    }

    /// What an accepted line does, on endless tables.
    fn perform(&mut self, line: &Line) -> Answer {
        let state = &mut self.state;
        match line {
            Line::Sort { datatype } => {
                state.terms.sorts.push(if *datatype { SortNode::Datatype } else { SortNode::Uninterpreted })
            }
            Line::Ctor { sort, fields } => state.terms.dt_add_constructor(*sort as usize, &numbers(fields)),
            Line::Fun { result, arguments } => state.terms.declare_fun(*result as usize, &numbers(arguments)),
            Line::Close => self.closed = true,
            Line::Term { symbol, arguments } => {
                return Answer::Term(state.make_app(*symbol as usize, &numbers(arguments)))
            }
            Line::Eq(t, u) => return Answer::Term(state.terms.mk_eq(*t as usize, *u as usize)),
            Line::Var { variable, atom } => {
                state.atoms.push(Registered { var: *variable as usize, atom: *atom as usize });
                state.new_var(*atom as usize);
            }
            Line::Equate(lit) => return self.merge_sides(*lit),
            Line::Cong(t, u) => {
                let pairs = self.argument_pairs(*t, *u);
                return self.merged(*t, *u, EqJust::Congruence(pairs.into()));
            }
            Line::Iface { sides: (t, u), theory, tag } => {
                return self.merged(*t, *u, EqJust::Leaf(Leaf::Interface { theory: *theory, tag: *tag }))
            }
            Line::Assert(lit) => return self.assert(*lit),
            Line::Push => state.level += 1,
            Line::Pop(k) => return self.pop_to(*k as usize),
            Line::Differ(lit) => return self.differ(*lit),
            Line::Check { full } => return state.check(*full),
        }
        Answer::Ok
    }

    /// 11. Does the result fit?
    fn fits(&self) -> bool {
        let State { terms, eq, level, .. } = &self.state;
        terms.sorts.len() <= MOST_SORTS
            && terms.symbols.len() <= MOST_SYMBOLS
            && terms.terms.len() <= MOST_TERMS
            && terms.places() <= MOST_PLACES
            && eq.pairs_in_force() <= MOST_PAIRS
            && *level <= MOST_LEVELS
    }
}

/// What the generator and the statistic ask of a session.
impl Session {
    pub fn datatypes(&self) -> Vec<usize> {
        self.state.terms.datatypes()
    }

    /// The datatypes among the fields of each constructor of a datatype.
    pub fn datatype_fields(&self, dt: usize) -> Vec<Vec<usize>> {
        let terms = &self.state.terms;
        let fields = |c: usize| terms.symbols[c].params.iter().copied();
        let datatypes = |c| fields(c).filter(|&field| terms.is_datatype_sort(field)).collect();
        terms.dt_constructors(dt).into_iter().map(datatypes).collect()
    }

    /// The datatypes found inhabited by so many rounds.
    pub fn rounds(&self, n: usize) -> Vec<usize> {
        self.state.terms.rounds(n)
    }

    pub fn term_count(&self) -> usize {
        self.state.terms.terms.len()
    }

    /// The argument places of all terms.
    pub fn places(&self) -> usize {
        self.state.terms.places()
    }

    pub fn level(&self) -> usize {
        self.state.level
    }

    pub fn sort_of(&self, t: usize) -> usize {
        self.state.terms.sort_of(t)
    }

    /// The number of a term's symbol; an equation has none.
    pub fn symbol_of(&self, t: usize) -> Option<usize> {
        self.state.terms.role_of(t).map(|(symbol, _)| symbol)
    }

    /// The role of a term's symbol; an equation has none.
    pub fn role_of(&self, t: usize) -> Option<Role> {
        self.state.terms.role_of(t).map(|(_, role)| role)
    }

    pub fn is_datatype(&self, t: usize) -> bool {
        self.state.terms.is_datatype_sort(self.sort_of(t))
    }

    /// The atom of a registered variable.
    pub fn atom_of(&self, variable: u32) -> usize {
        atom::atom(&self.state.atoms, variable as usize)
    }

    pub fn arguments_of(&self, t: usize) -> Vec<usize> {
        self.state.terms.children(t).to_vec()
    }

    pub fn equal(&self, t: usize, u: usize) -> bool {
        self.state.equal(t, u)
    }

    /// The literals in the record of negative testers that conflict now, in order of assertion.
    pub fn denied_testers(&self) -> Vec<u32> {
        let conflicts = |lit: &u32| self.state.tester_of(*lit).is_some_and(|x| self.state.own_app(&x).is_some());
        self.state.dt.negative_record.iter().map(|e| e.lit).filter(conflicts).collect()
    }

    pub fn has_negative_record(&self) -> bool {
        !self.state.dt.negative_record.is_empty()
    }

    /// The literals in the record of unequal terms, in order of the lines.
    pub fn unequal_literals(&self) -> Vec<u32> {
        self.state.dt.disequalities.iter().map(|e| e.lit).collect()
    }

    /// The session after a full check that is given no unequal terms, and its answer.
    pub fn check_without_unequal(&self) -> (Session, Answer) {
        let mut after = self.clone();
        after.state.dt.disequalities.clear();
        let answer = after.state.check(true);
        (after, answer)
    }

    /// Why two equal terms are equal.
    pub fn explain(&self, t: usize, u: usize) -> Vec<Leaf> {
        firsts(self.state.eq.explain(t, u))
    }

    /// Whether a literal's atom is an equation.
    pub fn is_equation(&self, literal: u32) -> bool {
        self.op(self.atom_of(literal / 2)) == Op::Eq
    }

    /// Whether a literal says of a term that it is not of a constructor.
    pub fn is_negative_tester(&self, literal: u32) -> bool {
        !is_positive(literal) && self.state.tester_of(literal).is_some()
    }
}
