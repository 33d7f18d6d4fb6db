//! Scripts like those of a search core: it declares, builds terms, registers atoms, decides, closes under congruence,
//! checks, follows the lemmas it is handed and goes back after conflicts. Unless asked for, no line is refused.

use crate::answer::Answer;
use crate::needs::Needs;
use crate::plans::Plan;
use crate::rng::Rng;
use crate::run::{MOST_OUTPUT, MOST_SCRIPT};
use crate::session::{MOST_LEVELS, MOST_PLACES, MOST_TERMS, MOST_VARIABLES};
use crate::signature::{Shape, Signature};
use crate::writer::Writer;
use std::collections::HashMap;

/// How large a script becomes.
#[derive(Clone, Copy)]
pub enum Size {
    Small,
    Middle,
    Large,
}

pub struct Search<'a> {
    pub rng: &'a mut Rng,
    pub w: Writer,
    pub signature: Signature,
    pub size: Size,
    /// How many of a hundred steps follow a refused line.
    refused_percent: usize,
    /// Whether the signature has what the topics build with.
    pub rich: bool,
    /// How many interface leaves were made of their own.
    pub tags: usize,
    /// Each registered variable with its atom.
    pub variables: Vec<(usize, usize)>,
    pub first_variable: HashMap<usize, usize>,
    /// Whether the script asserts negative testers; decided when the first one comes up, unless before.
    says_no: Option<bool>,
    /// Whether the script says of terms that they differ; decided when that first comes up, unless before.
    tells_apart: Option<bool>,
}

/// How many of a hundred scripts in which a negative tester comes up assert it. The published Rust is not given such
/// scripts, so most do without.
const SAYS_NO_PERCENT: usize = 10;
/// The same of unequal terms.
const TELLS_APART_PERCENT: usize = 10;

pub fn search(rng: &mut Rng, size: Size, refused_percent: usize) -> Writer {
    let mut search = Search::start(rng, size, refused_percent);
    search.fill();
    search.w
}

/// Random steps until a limit is near. What is joined below all levels soon contradicts itself, so most checks end in a
/// conflict that no `pop` takes back.
pub fn stuck_search(rng: &mut Rng) -> Writer {
    let mut search = Search::for_benchmark(rng);
    search.fill();
    while search.room() {
        search.step();
    }
    search.w
}

/// A search that goes on until a limit is near: it decides at a level of its own, closes under congruence and checks.
pub fn long_search(rng: &mut Rng) -> Writer {
    let mut search = Search::for_benchmark(rng);
    let (terms, atoms) = (search.rng.between(20, 120), search.rng.between(8, 50));
    search.make_terms(terms);
    search.make_atoms(atoms);
    while search.room() {
        search.push();
        search.decide();
        if search.rng.chance(30) {
            search.close_congruences();
        }
        search.check();
    }
    search.w
}

/// A search that asserts negative testers too.
pub fn saying_no(rng: &mut Rng) -> Writer {
    let size = if rng.chance(70) { Size::Small } else { Size::Middle };
    let mut search = Search::start(rng, size, 0).saying_no(true);
    search.fill();
    search.w
}

/// A search that says of terms that they differ.
pub fn telling_apart(rng: &mut Rng) -> Writer {
    let size = if rng.chance(70) { Size::Small } else { Size::Middle };
    let mut search = Search::start(rng, size, 0).telling_apart(true);
    search.fill();
    search.w
}

/// A small script on one topic, with a few random steps after it.
pub fn on_topic(rng: &mut Rng, topic: Plan) -> Writer {
    about(Search::over(rng, Size::Small, 0, true, Needs::Nothing), topic)
}

/// The same, and the steps may assert negative testers.
pub fn on_negative_topic(rng: &mut Rng, topic: Plan) -> Writer {
    about(Search::over(rng, Size::Small, 0, true, Needs::Nothing).saying_no(true), topic)
}

/// The same, and the steps may say of terms that they differ.
pub fn on_unequal_topic(rng: &mut Rng, topic: Plan) -> Writer {
    about(Search::over(rng, Size::Small, 0, true, Needs::Nothing).telling_apart(true), topic)
}

fn about(mut search: Search, topic: Plan) -> Writer {
    topic(&mut search);
    for _ in 0..search.rng.below(4) {
        search.step_over_known_terms();
    }
    search.w
}

impl<'a> Search<'a> {
    pub fn start(rng: &'a mut Rng, size: Size, refused_percent: usize) -> Search<'a> {
        let rich = rng.chance(60);
        let needs = if rich { Needs::Nothing } else { Needs::any(rng) };
        Search::over(rng, size, refused_percent, rich, needs)
    }

    /// The long scripts of the benchmark close in one round, as they did when they were first timed.
    fn for_benchmark(rng: &'a mut Rng) -> Search<'a> {
        let rich = rng.chance(60);
        Search::over(rng, Size::Large, 0, rich, Needs::Nothing).saying_no(false).telling_apart(false)
    }

    fn over(rng: &'a mut Rng, size: Size, refused_percent: usize, rich: bool, needs: Needs) -> Search<'a> {
        let (datatypes, others, constants, functions) = match size {
            Size::Small if rich => (1, rng.below(2), 4, 0),
            Size::Small => (rng.between(1, 2), rng.below(2), 2, 2),
            Size::Middle => (rng.between(1, 3), rng.below(3), 4, 4),
            Size::Large => (rng.between(2, 6), rng.below(4), 6, 8),
        };
        let datatypes = needs.datatypes(rng, datatypes);
        let shape = Shape { datatypes, others, constants, functions, refused_percent, rich, needs };
        let mut w = Writer::new();
        let signature = Signature::declare(rng, &mut w, &shape);
        let (variables, first_variable) = (Vec::new(), HashMap::new());
        Search {
            rng,
            w,
            signature,
            size,
            refused_percent,
            rich,
            tags: 0,
            variables,
            first_variable,
            says_no: None,
            tells_apart: None,
        }
    }

    /// Decides whether the script asserts negative testers.
    pub fn saying_no(mut self, yes: bool) -> Search<'a> {
        self.says_no = Some(yes);
        self
    }

    /// Any literal may be asserted but a negative tester, which few scripts assert.
    pub fn may_assert(&mut self, literal: usize) -> bool {
        !self.w.session.is_negative_tester(literal as u32)
            || *self.says_no.get_or_insert_with(|| self.rng.chance(SAYS_NO_PERCENT))
    }

    /// Decides whether the script says of terms that they differ.
    pub fn telling_apart(mut self, yes: bool) -> Search<'a> {
        self.tells_apart = Some(yes);
        self
    }

    /// The negative literal of an equation may be said by `differ`, which few scripts do. Decided by numbers of its own:
    /// the other scripts go on as if nothing had been asked.
    fn may_differ(&mut self, literal: usize) -> bool {
        let decide = || Rng::new(self.w.script.len() as u64).chance(TELLS_APART_PERCENT);
        literal % 2 == 1 && self.w.session.is_equation(literal as u32) && *self.tells_apart.get_or_insert_with(decide)
    }

    /// Puts a literal in force: by `assert` or, where its sides may be said to differ, mostly by `differ`.
    pub fn say(&mut self, literal: usize) -> Answer {
        let differ = self.may_differ(literal) && self.rng.chance(80);
        self.w.numbers(if differ { "differ" } else { "assert" }, &[literal])
    }

    fn fill(&mut self) {
        let (terms, atoms, steps) = match self.size {
            Size::Small => (self.rng.between(2, 8), self.rng.between(1, 4), self.rng.between(3, 15)),
            Size::Middle => (self.rng.between(4, 25), self.rng.between(2, 10), self.rng.between(5, 50)),
            Size::Large => (self.rng.between(20, 120), self.rng.between(8, 50), self.rng.between(30, 250)),
        };
        let plan = self.any_plan();
        if plan.is_none() || self.rng.chance(40) {
            self.make_terms(terms);
            self.make_atoms(atoms);
        }
        if let Some(plan) = plan {
            plan(self);
        }
        for _ in 0..steps {
            if !self.room() {
                break;
            }
            if self.rng.chance(self.refused_percent) {
                self.offend();
            }
            self.step();
        }
    }

    /// Keeps away from every limit, so that no line is refused and the run does not end early.
    pub fn room(&self) -> bool {
        self.w.session.term_count() + 300 < MOST_TERMS
            && self.w.session.places() + 1_200 < MOST_PLACES
            && self.w.script.len() + 4_096 < MOST_SCRIPT
            && self.w.output + 16_384 < MOST_OUTPUT
            && self.variables.len() + 64 < MOST_VARIABLES as usize
    }

    fn step(&mut self) {
        match self.rng.below(100) {
            0..=89 => self.step_over_known_terms(),
            90..=93 => self.make_terms(2),
            _ => self.make_atoms(1),
        }
    }

    /// A step whose only new terms are those of a check.
    pub fn step_over_known_terms(&mut self) {
        match self.rng.below(100) {
            0..=9 => self.push(),
            10..=15 => self.pop(),
            16..=41 => self.decide(),
            42..=48 => self.join_by_interface(),
            49..=66 => self.close_congruences(),
            67..=98 => self.check(),
            _ => {
                self.w.line("check=0");
            }
        }
    }

    pub fn push(&mut self) {
        if self.w.session.level() < MOST_LEVELS {
            self.w.line("push=1");
        }
    }

    pub fn pop(&mut self) {
        let level = self.w.session.level();
        let target = if self.rng.chance(85) { self.rng.below(level + 1) } else { self.rng.below(level + 3) };
        self.w.numbers("pop", &[target]);
    }

    fn decide(&mut self) {
        let Some(&(variable, atom)) = self.rng.pick(&self.variables) else {
            return;
        };
        if self.rng.chance(20) && self.may_assert(2 * variable + 1) {
            let answer = self.say(2 * variable + 1);
            self.go_back_after(&answer);
        } else {
            self.hold(variable, atom);
        }
    }

    /// Asserts an atom and merges its sides if it is an equation, as a search core does.
    fn hold(&mut self, variable: usize, atom: usize) {
        let equation = self.w.session.symbol_of(atom).is_none();
        let answer =
            if !equation || self.rng.chance(50) { self.w.numbers("assert", &[2 * variable]) } else { Answer::Ok };
        if equation {
            self.w.numbers("equate", &[2 * variable]);
        }
        self.go_back_after(&answer);
    }

    fn go_back_after(&mut self, answer: &Answer) {
        let level = self.w.session.level();
        if matches!(answer, Answer::Conflict(_)) && level > 0 && self.rng.chance(80) {
            let target = self.rng.below(level);
            self.w.numbers("pop", &[target]);
        }
    }

    fn join_by_interface(&mut self) {
        let Some((t, u)) = self.two_of_one_sort() else {
            return;
        };
        let theory = if self.rng.chance(90) { self.rng.below(6) } else { self.rng.below(65_536) };
        let tag = if self.rng.chance(90) { self.rng.below(20) } else { self.rng.below(4_294_967_296) };
        self.w.numbers("iface", &[t, u, theory, tag]);
    }

    fn two_of_one_sort(&mut self) -> Option<(usize, usize)> {
        let count = self.w.session.term_count();
        if count == 0 {
            return None;
        }
        let t = self.rng.below(count);
        let sort = self.w.session.sort_of(t);
        let same: Vec<usize> = (0..count).filter(|&u| self.w.session.sort_of(u) == sort).collect();
        let u = *self.rng.pick(&same)?;
        Some((t, u))
    }

    /// Joins congruent applications, sometimes all of them and sometimes a few.
    pub fn close_congruences(&mut self) {
        let most = if self.rng.chance(50) { 3 } else { 30 };
        for _ in 0..most {
            let candidates = self.congruent_pairs();
            let Some(&(t, u)) = self.rng.pick(&candidates) else {
                return;
            };
            let (t, u) = if self.rng.chance(50) { (t, u) } else { (u, t) };
            self.w.numbers("cong", &[t, u]);
        }
    }

    fn congruent_pairs(&mut self) -> Vec<(usize, usize)> {
        let session = &mut self.w.session;
        let applications: Vec<(usize, Option<usize>, Vec<usize>)> = (0..session.term_count())
            .map(|t| (t, session.symbol_of(t), session.arguments_of(t)))
            .filter(|(_, _, arguments)| !arguments.is_empty())
            .collect();
        let mut pairs = Vec::new();
        for (place, (t, symbol, left)) in applications.iter().enumerate() {
            for (u, other, right) in &applications[place + 1..] {
                let congruent = symbol == other && left.iter().zip(right).all(|(&a, &b)| session.equal(a, b));
                if congruent && !session.equal(*t, *u) {
                    pairs.push((*t, *u));
                }
            }
        }
        pairs
    }

    pub fn check(&mut self) {
        let answer = self.w.line("check=1");
        if let Answer::Split { atoms, guards, phases } = &answer {
            if self.rng.chance(90) {
                self.follow(atoms, guards, phases);
            }
        }
        self.go_back_after(&answer);
    }

    /// Registers a lemma's atoms and lets one of them hold, mostly one that a phase prefers.
    fn follow(&mut self, atoms: &[usize], guards: &[u32], phases: &[Option<bool>]) {
        if guards.is_empty() && atoms.len() == 1 && self.rng.chance(25) {
            self.w.line("pop=0");
        }
        for &atom in atoms {
            if !self.first_variable.contains_key(&atom) || self.rng.chance(5) {
                self.register(atom);
            }
        }
        let preferred: Vec<usize> =
            atoms.iter().zip(phases).filter(|(_, phase)| phase.is_some()).map(|(&atom, _)| atom).collect();
        let choice = if self.rng.chance(50) { self.rng.pick(&preferred) } else { None };
        let Some(&atom) = choice.or_else(|| self.rng.pick(atoms)) else {
            return;
        };
        if atoms.len() > 1 && self.rng.chance(50) {
            self.push();
        }
        self.hold(self.first_variable[&atom], atom);
    }

    pub fn register(&mut self, atom: usize) -> usize {
        let taken = |variable: usize, known: &[(usize, usize)]| known.iter().any(|&(v, _)| v == variable);
        let mut variable = if self.rng.chance(90) { self.variables.len() } else { self.rng.below(1_024) };
        while taken(variable, &self.variables) {
            variable = (variable + 1) % MOST_VARIABLES as usize;
        }
        self.w.numbers("var", &[variable, atom]);
        self.variables.push((variable, atom));
        self.first_variable.entry(atom).or_insert(variable);
        variable
    }

    pub fn make_terms(&mut self, count: usize) {
        for _ in 0..count {
            let symbol = self.rng.below(self.signature.symbols.len());
            self.apply(symbol, 3);
        }
    }

    /// Applies a symbol to known or new terms; `depth` bounds the new ones.
    fn apply(&mut self, symbol: usize, depth: usize) -> usize {
        let arguments = self.signature.symbols[symbol].arguments.clone();
        let mut numbers = vec![symbol];
        for sort in arguments {
            numbers.push(self.any_term(sort, depth));
        }
        self.w.term("term", &numbers).expect("well sorted, and room")
    }

    pub fn any_term(&mut self, sort: usize, depth: usize) -> usize {
        let session = &self.w.session;
        let known: Vec<usize> = (0..session.term_count()).filter(|&t| session.sort_of(t) == sort).collect();
        if !known.is_empty() && self.rng.chance(75) {
            return known[self.rng.below(known.len())];
        }
        let fits = |symbol: &usize| {
            let declared = &self.signature.symbols[*symbol];
            declared.result == sort && (depth > 0 || declared.arguments.is_empty())
        };
        let symbols: Vec<usize> = (0..self.signature.symbols.len()).filter(fits).collect();
        let symbol = *self.rng.pick(&symbols).expect("each sort has a constant");
        self.apply(symbol, depth.saturating_sub(1))
    }

    /// Makes and registers atoms: equations, testers and other Boolean terms.
    pub fn make_atoms(&mut self, count: usize) {
        for _ in 0..count {
            let atom = match self.rng.below(10) {
                0..=5 => self.random_equation(),
                6..=8 => self.random_tester(),
                _ => Some(self.any_term(0, 2)),
            };
            if let Some(atom) = atom {
                self.register(atom);
            }
        }
    }

    fn random_equation(&mut self) -> Option<usize> {
        let (t, u) = self.two_of_one_sort()?;
        if t == u {
            return None;
        }
        self.w.term("eq", &[t, u])
    }

    fn random_tester(&mut self) -> Option<usize> {
        let place = self.rng.below(self.signature.constructors.len());
        let (tester, sort) = {
            let constructor = &self.signature.constructors[place];
            (constructor.tester(), constructor.sort)
        };
        let t = self.any_term(sort, 2);
        self.w.term("term", &[tester, t])
    }
}
