//! Words for terms, literals and clauses.

use robinlocker::{Lit, Var};
use std::collections::BTreeMap;

/// The words that the sheet has for its terms, and which term each variable stands for.
#[derive(Default)]
pub struct Names {
    words: BTreeMap<u32, String>,
    atoms: BTreeMap<Var, u32>,
}

impl Names {
    /// A term that was named before keeps its words.
    pub fn name(&mut self, term: u32, words: &str) {
        if !words.is_empty() {
            self.words.entry(term).or_insert_with(|| words.to_string());
        }
    }

    pub fn register(&mut self, var: Var, atom: u32) {
        self.atoms.entry(var).or_insert(atom);
    }

    /// The lowest variable of an atom.
    pub fn var_of(&self, atom: u32) -> Option<Var> {
        self.atoms.iter().find(|(_, &registered)| registered == atom).map(|(&var, _)| var)
    }

    pub fn has(&self, var: Var) -> bool {
        self.atoms.contains_key(&var)
    }

    /// The variables so far, in order.
    pub fn vars(&self) -> impl Iterator<Item = Var> + '_ {
        self.atoms.keys().copied()
    }

    pub fn next_var(&self) -> Var {
        Var(self.atoms.keys().next_back().map_or(0, |last| last.0 + 1))
    }

    pub fn term(&self, term: u32) -> String {
        self.words.get(&term).cloned().unwrap_or_else(|| format!("term {term}"))
    }

    /// The literal's variable is registered.
    pub fn literal(&self, literal: Lit) -> String {
        let words = self.term(self.atoms[&literal.var()]);
        if literal.is_positive() {
            words
        } else {
            format!("not: {words}")
        }
    }

    /// A clause: one of these holds.
    pub fn literals(&self, literals: &[Lit]) -> String {
        let words: Vec<String> = literals.iter().map(|&literal| format!("[{}]", self.literal(literal))).collect();
        words.join(" ")
    }
}
