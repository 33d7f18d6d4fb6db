//! Scripts of a search core that reacts to each answer: it keeps clauses and an assignment, decides, follows the
//! lemmas, and after a conflict goes back below a cited literal and asserts its opposite. No line is refused.

use crate::answer::{Answer, Leaf};
use crate::rng::Rng;
use crate::search::{Search, Size};
use crate::writer::Writer;
use std::collections::BTreeMap;

pub fn reacting(rng: &mut Rng) -> Writer {
    let size = if rng.chance(70) { Size::Small } else { Size::Middle };
    react_with(Search::start(rng, size, 0))
}

/// The same, and all negative testers are asserted.
pub fn saying_no(rng: &mut Rng) -> Writer {
    react_with(Search::start(rng, Size::Small, 0).saying_no(true))
}

/// The same, and terms are said to differ.
pub fn telling_apart(rng: &mut Rng) -> Writer {
    react_with(Search::start(rng, Size::Small, 0).telling_apart(true))
}

fn react_with(search: Search) -> Writer {
    let mut core = Core { search, clauses: Vec::new(), assigned: BTreeMap::new() };
    core.prepare();
    core.run();
    core.search.w
}

struct Core<'a> {
    search: Search<'a>,
    /// Literals of which one has to hold.
    clauses: Vec<Vec<usize>>,
    /// Sign and level of each assigned variable; true is positive.
    assigned: BTreeMap<usize, (bool, usize)>,
}

/// Whether the core goes on.
enum Next {
    Again,
    /// Satisfied, unknown, or no choice is left.
    Ended,
}

impl Core<'_> {
    fn prepare(&mut self) {
        let search = &mut self.search;
        let (terms, atoms) = (search.rng.between(4, 14), search.rng.between(4, 12));
        search.make_terms(terms);
        search.make_atoms(atoms);
        for _ in 0..search.rng.below(3) {
            let literals: Vec<usize> = search.variables.iter().map(|&(variable, _)| 2 * variable).collect();
            let signed = |_| {
                let sign = usize::from(search.rng.chance(30));
                search.rng.pick(&literals).map(|literal| literal + sign)
            };
            self.clauses.push((0..2).filter_map(signed).collect());
        }
    }

    fn run(&mut self) {
        for _ in 0..self.search.rng.between(8, 40) {
            if !self.search.room() {
                return;
            }
            if matches!(self.step(), Next::Ended) {
                return;
            }
        }
    }

    fn step(&mut self) -> Next {
        if let Some(literal) = self.forced() {
            return self.hold(literal);
        }
        if let Some(clause) = self.clauses.iter().find(|clause| clause.iter().all(|&l| self.is_false(l))).cloned() {
            let opposites: Vec<usize> = clause.iter().map(|literal| literal ^ 1).collect();
            return self.go_back(&opposites);
        }
        if self.search.rng.chance(50) {
            if let Some(literal) = self.choice() {
                return self.decide(literal);
            }
        }
        self.search.close_congruences();
        let answer = self.search.w.line("check=1");
        self.react(&answer)
    }

    fn value(&self, literal: usize) -> Option<bool> {
        self.assigned.get(&(literal / 2)).map(|&(positive, _)| positive == (literal % 2 == 0))
    }

    fn is_false(&self, literal: usize) -> bool {
        self.value(literal) == Some(false)
    }

    /// The clauses of which no literal holds.
    fn open(&self) -> impl Iterator<Item = &Vec<usize>> {
        self.clauses.iter().filter(|clause| !clause.iter().any(|&literal| self.value(literal) == Some(true)))
    }

    /// The only literal that a clause leaves.
    fn forced(&self) -> Option<usize> {
        self.open().find_map(|clause| {
            let mut left = clause.iter().filter(|&&literal| self.value(literal).is_none());
            let first = *left.next()?;
            left.all(|&literal| literal == first).then_some(first)
        })
    }

    /// Assigns a literal, asserts it and merges the sides of an equation that is to hold. Of a negative tester the
    /// solver is mostly not told.
    fn hold(&mut self, literal: usize) -> Next {
        let variable = literal / 2;
        self.assigned.insert(variable, (literal % 2 == 0, self.search.w.session.level()));
        if !self.search.may_assert(literal) {
            return Next::Again;
        }
        let answer = self.search.say(literal);
        let atom = self.search.w.session.atom_of(variable as u32);
        if literal % 2 == 0 && self.search.w.session.symbol_of(atom).is_none() {
            self.search.w.numbers("equate", &[literal]);
        }
        self.react(&answer)
    }

    fn react(&mut self, answer: &Answer) -> Next {
        match answer {
            Answer::Conflict(leaves) => self.learn(leaves),
            Answer::Split { atoms, guards, .. } => self.add_lemma(atoms, guards),
            Answer::Ok => Next::Again,
            _ => self.choice().map_or(Next::Ended, |literal| self.decide(literal)),
        }
    }

    /// Learns that the cited literals do not hold together, and goes back.
    fn learn(&mut self, leaves: &[Leaf]) -> Next {
        let cited = |leaf: &Leaf| match leaf {
            Leaf::Literal(literal) => Some(*literal as usize),
            Leaf::Interface { .. } => None,
        };
        let cited: Vec<usize> = leaves.iter().filter_map(cited).collect();
        self.clauses.push(cited.iter().map(|literal| literal ^ 1).collect());
        self.go_back(&cited)
    }

    /// Goes back below the latest of these literals, which cannot hold together, and asserts its opposite.
    fn go_back(&mut self, literals: &[usize]) -> Next {
        let level_of = |literal: &usize| self.assigned.get(&(literal / 2)).map_or(0, |&(_, level)| level);
        let Some(&latest) = literals.iter().max_by_key(|&literal| level_of(literal)) else {
            return Next::Ended;
        };
        let level = level_of(&latest);
        if level == 0 {
            return Next::Ended;
        }
        let below = literals.iter().map(level_of).filter(|&other| other < level).max().unwrap_or(0);
        let target = if self.search.rng.chance(50) { below } else { level - 1 };
        self.search.w.numbers("pop", &[target]);
        self.assigned.retain(|_, &mut (_, level)| level <= target);
        self.hold(latest ^ 1)
    }

    /// Registers the atoms of a lemma and keeps the lemma as a clause; one that stands alone holds from level 0 on.
    fn add_lemma(&mut self, atoms: &[usize], guards: &[u32]) -> Next {
        let mut clause: Vec<usize> = guards.iter().map(|&guard| guard as usize).collect();
        for &atom in atoms {
            if !self.search.first_variable.contains_key(&atom) {
                self.search.register(atom);
            }
            clause.push(2 * self.search.first_variable[&atom]);
        }
        if clause.len() == 1 && self.search.w.session.level() > 0 && self.search.rng.chance(50) {
            self.search.w.line("pop=0");
            self.assigned.retain(|_, &mut (_, level)| level == 0);
        }
        self.clauses.push(clause);
        Next::Again
    }

    /// A literal without a value: of an open clause or, if there is none, of any variable.
    fn choice(&mut self) -> Option<usize> {
        let free = |literal: &usize| self.value(*literal).is_none();
        let mut literals: Vec<usize> = self.open().flatten().copied().filter(free).collect();
        if literals.is_empty() {
            let variables = self.search.variables.iter().map(|&(variable, _)| 2 * variable);
            literals = variables.filter(free).collect();
        }
        self.search.rng.pick(&literals).copied()
    }

    fn decide(&mut self, literal: usize) -> Next {
        let sign = usize::from(self.search.rng.chance(10));
        self.search.push();
        self.hold(literal ^ sign)
    }
}
