//! Clauses, and what they ask for under the literals that are true so far.

use robinlocker::Lit;

/// The literals that are true so far, oldest first.
#[derive(Default)]
pub struct Assignment {
    pub literals: Vec<Lit>,
}

impl Assignment {
    pub fn is_true(&self, literal: Lit) -> bool {
        self.literals.contains(&literal)
    }

    pub fn is_open(&self, literal: Lit) -> bool {
        !self.is_true(literal) && !self.is_true(!literal)
    }
}

/// Literals of which at least one has to be true.
pub type Clause = Vec<Lit>;

/// What the clauses ask for next.
pub enum Demand {
    /// All literals of this clause are false.
    Broken(Clause),
    /// All literals of this clause but this one are false.
    Forced(Lit, Clause),
    Nothing,
}

pub fn demand(clauses: &[Clause], assignment: &Assignment) -> Demand {
    let mut forced = Demand::Nothing;
    for clause in unmet(clauses, assignment) {
        let open: Vec<Lit> = clause.iter().copied().filter(|&literal| assignment.is_open(literal)).collect();
        match (&open[..], &forced) {
            ([], _) => return Demand::Broken(clause.clone()),
            (&[only], Demand::Nothing) => forced = Demand::Forced(only, clause.clone()),
            _ => {}
        }
    }
    forced
}

/// The clauses that have no true literal yet.
pub fn unmet<'a>(clauses: &'a [Clause], assignment: &'a Assignment) -> impl Iterator<Item = &'a Clause> {
    clauses.iter().filter(|clause| !clause.iter().any(|&literal| assignment.is_true(literal)))
}
