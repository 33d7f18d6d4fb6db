//! The search: decides, follows clauses, checks, learns and goes back.

use super::clauses::{demand, unmet, Assignment, Clause, Demand};
use super::names::Names;
use super::sheet::Sheet;
use robinlocker::{Answer, Leaf, Line, Lit, Phase, Question, Session, Var};
use std::collections::BTreeSet;

/// What is said of a sheet.
#[derive(Clone, Copy, PartialEq, Eq, Debug)]
pub enum Verdict {
    /// There is a branch on which all clauses hold and to which the datatypes have no objection.
    Passes,
    /// No branch is left.
    NoBranch,
    /// Neither was found: a limit was met, or nothing was left to decide where a check answered `unknown`.
    Unknown,
}

/// What became of a level once nothing more follows on it.
enum Settled {
    /// A conflict or a broken clause.
    Dead,
    /// Did the last check have no objection?
    Alive { sat: bool },
}

pub struct Search<'a> {
    session: Session,
    print: &'a mut dyn FnMut(&str),
    names: Names,
    /// The rules of the sheet, the lemmas and what was learnt.
    clauses: Vec<Clause>,
    assignment: Assignment,
    /// Pairs of applications that are merged by congruence now.
    joined: Vec<(u32, u32)>,
    /// Literals that a split proposes to try first.
    proposed: BTreeSet<Lit>,
    /// Terms that are known to be Boolean.
    atoms: BTreeSet<u32>,
    /// Variables whose atom turned out to be no equation.
    testers: BTreeSet<Var>,
    /// One more than the highest term that an answer has named. A check makes the parts of an atom before the atom, so all are below.
    terms: u32,
    level: u32,
    /// Was something left out because it did not fit? From then on `sat` says too little for a pass.
    limit_met: bool,
}

impl<'a> Search<'a> {
    /// Sends the lines of the sheet. An error says which line the session refuses.
    pub fn over(sheet: &Sheet, print: &'a mut dyn FnMut(&str)) -> Result<Search<'a>, String> {
        let mut search = Search {
            session: Session::new(),
            print,
            names: Names::default(),
            clauses: Vec::new(),
            assignment: Assignment::default(),
            joined: Vec::new(),
            proposed: BTreeSet::new(),
            atoms: BTreeSet::new(),
            testers: BTreeSet::new(),
            terms: 0,
            level: 0,
            limit_met: false,
        };
        for (line, words) in &sheet.lines {
            search.send_from_sheet(line, words)?;
        }
        for (clause, words) in &sheet.rules {
            search.take_rule(clause, words)?;
        }
        Ok(search)
    }

    fn take_rule(&mut self, clause: &Clause, words: &str) -> Result<(), String> {
        if let Some(literal) = clause.iter().find(|literal| !self.names.has(literal.var())) {
            return Err(format!("a clause names variable {}, which is not registered", literal.var()));
        }
        self.note(&format!("rule: {}  {words}", self.names.literals(clause)));
        self.clauses.push(clause.clone());
        Ok(())
    }

    fn send_from_sheet(&mut self, line: &Line, words: &str) -> Result<(), String> {
        let words = match line {
            Line::Var { atom, .. } if words.is_empty() => self.names.term(*atom),
            _ => words.to_string(),
        };
        let answer = self.send(line, &words);
        match (line, &answer) {
            (_, Answer::Refused(question)) => return Err(format!("{line} is refused: {question}")),
            (Line::Var { var, atom }, _) => self.register(*var, *atom),
            (Line::Eq(..), Answer::Term(number)) => {
                self.atoms.insert(*number);
                self.names.name(*number, &words);
            }
            (_, Answer::Term(number)) => self.names.name(*number, &words),
            _ => {}
        }
        Ok(())
    }

    fn register(&mut self, var: Var, atom: u32) {
        self.atoms.insert(atom);
        self.names.register(var, atom);
    }

    /// Searches, and says what came of it.
    pub fn run(&mut self) -> Verdict {
        let verdict = self.explore();
        match verdict {
            Verdict::Passes => {
                self.level = 0;
                self.note(
                    "the sheet passes; all rules hold on this branch, and the datatypes have no objection to it:",
                );
                for literal in self.assignment.literals.clone() {
                    self.note(&format!("  {}", self.names.literal(literal)));
                }
            }
            Verdict::NoBranch => self.note("the sheet does not pass: no branch is left"),
            Verdict::Unknown => self.note("no verdict: there was no way to go on"),
        }
        verdict
    }

    /// Searches this level and those above it. On the way out without a pass the level is as open as on the way in.
    fn explore(&mut self) -> Verdict {
        let mut failed = Verdict::NoBranch;
        loop {
            let sat = match self.settle() {
                Settled::Dead => return failed,
                Settled::Alive { sat } => sat,
            };
            let Some(literal) = self.choose(sat) else {
                return if sat { Verdict::Passes } else { Verdict::Unknown };
            };
            match self.descend(literal) {
                Verdict::Passes => return Verdict::Passes,
                Verdict::Unknown => failed = Verdict::Unknown,
                Verdict::NoBranch => {}
            }
            self.note(&format!("the other way: {}", self.names.literal(!literal)));
            if !self.hold(!literal) {
                return failed;
            }
        }
    }

    /// Opens a level for a decision, searches there, and takes all of it back if that fails.
    fn descend(&mut self, literal: Lit) -> Verdict {
        self.note(&format!("decide: {}", self.names.literal(literal)));
        let (held, joined) = (self.assignment.literals.len(), self.joined.len());
        if self.send(&Line::Push, "") != Answer::Ok {
            return Verdict::Unknown;
        }
        self.level += 1;
        let verdict = if self.hold(literal) { self.explore() } else { Verdict::NoBranch };
        if verdict != Verdict::Passes {
            self.level -= 1;
            self.send(&Line::Pop(self.level), "taken back");
            self.assignment.literals.truncate(held);
            self.joined.truncate(joined);
        }
        verdict
    }

    /// A literal to decide: of the first unmet clause one that is proposed, or else its first; with all clauses met and a check that
    /// still knows too little, any that is open.
    fn choose(&self, sat: bool) -> Option<Lit> {
        let open = |literal: &Lit| self.assignment.is_open(*literal);
        if let Some(clause) = unmet(&self.clauses, &self.assignment).next() {
            let mut literals = clause.iter().copied().filter(open);
            let first = literals.clone().next();
            return literals.find(|literal| self.proposed.contains(literal)).or(first);
        }
        if sat {
            return None;
        }
        self.names.vars().map(Var::positive).find(open)
    }

    /// Follows clauses and lemmas until nothing new comes.
    fn settle(&mut self) -> Settled {
        loop {
            match demand(&self.clauses, &self.assignment) {
                Demand::Broken(clause) => {
                    self.note(&format!("back: of {} none is left", self.names.literals(&clause)));
                    return Settled::Dead;
                }
                Demand::Forced(literal, clause) => {
                    self.note(&format!("forced by {}", self.names.literals(&clause)));
                    if !self.hold(literal) {
                        return Settled::Dead;
                    }
                    continue;
                }
                Demand::Nothing => {}
            }
            self.join_applications();
            match self.check() {
                Answer::Conflict(leaves) => {
                    self.learn(&leaves);
                    return Settled::Dead;
                }
                Answer::Split { atoms, guards, phases } => self.take_lemma(&atoms, guards, &phases),
                answer => return Settled::Alive { sat: answer == Answer::Sat && !self.limit_met },
            }
        }
    }

    fn check(&mut self) -> Answer {
        let line = Line::Check { full: true };
        let answer = self.session.send(&line);
        let words = match &answer {
            Answer::Conflict(_) => "never true together",
            Answer::Split { atoms, .. } => {
                self.terms = atoms.iter().fold(self.terms, |terms, atom| terms.max(atom + 1));
                "a lemma"
            }
            Answer::Sat => "no objection",
            Answer::Unknown => "too little is known",
            _ => "no room",
        };
        self.show(&line, &answer, words);
        answer
    }

    /// Makes a literal true. An equation's sides are merged or kept apart too. False if that is a conflict.
    fn hold(&mut self, literal: Lit) -> bool {
        self.assignment.literals.push(literal);
        let words = self.names.literal(literal);
        if let Answer::Conflict(leaves) = self.send(&Line::Assert(literal), &words) {
            self.learn(&leaves);
            return false;
        }
        if !self.testers.contains(&literal.var()) {
            self.hold_equation(literal);
        }
        true
    }

    /// Whether the atom of a split is an equation is not said in the answer; the session refuses if it is none.
    fn hold_equation(&mut self, literal: Lit) {
        let (line, words) = match literal.is_positive() {
            true => (Line::Equate(literal), "its sides are one"),
            false => (Line::Differ(literal), "its sides differ"),
        };
        let answer = self.session.send(&line);
        match answer {
            Answer::Refused(Question::PositiveEquation | Question::NegativeEquation) => {
                self.testers.insert(literal.var());
                self.show(&line, &answer, "it is no equation");
            }
            _ => self.show(&line, &answer, words),
        }
    }

    /// Merges applications of one symbol over equal arguments, until there are no more. Which they are the session says: it refuses all
    /// others, and these lines are not shown.
    fn join_applications(&mut self) {
        loop {
            let mut new = false;
            for (left, right) in self.pairs() {
                let line = Line::Cong(left, right);
                match self.session.send(&line) {
                    Answer::Ok => {
                        new = true;
                        self.joined.push((left, right));
                        let words = format!("[{}] and [{}] are one", self.names.term(left), self.names.term(right));
                        self.show(&line, &Answer::Ok, &words);
                    }
                    Answer::Refused(Question::Fits) => self.limit_met = true,
                    _ => {}
                }
            }
            if !new {
                return;
            }
        }
    }

    /// All pairs of terms that may be worth merging: truth values need not be, since the search assigns them.
    fn pairs(&self) -> Vec<(u32, u32)> {
        let terms: Vec<u32> = (0..self.terms).filter(|term| !self.atoms.contains(term)).collect();
        let pairs = terms.iter().flat_map(|&left| terms.iter().map(move |&right| (left, right)));
        pairs.filter(|pair| pair.0 < pair.1 && !self.joined.contains(pair)).collect()
    }

    /// Learns for good that one of the leaves is false.
    fn learn(&mut self, leaves: &[Leaf]) {
        let clause: Clause = leaves.iter().map(|leaf| !literal_of(leaf)).collect();
        self.note(&format!("learnt: {}", self.names.literals(&clause)));
        self.clauses.push(clause);
    }

    /// Registers the atoms of a split and keeps its clause.
    fn take_lemma(&mut self, atoms: &[u32], guards: Vec<Lit>, phases: &[Phase]) {
        let mut clause = guards;
        for (place, &atom) in atoms.iter().enumerate() {
            let Some(var) = self.names.var_of(atom).or_else(|| self.register_new(atom)) else {
                self.limit_met = true;
                return;
            };
            if phases.get(place) == Some(&Phase::TrueFirst) {
                self.proposed.insert(var.positive());
            }
            clause.push(var.positive());
        }
        self.note(&format!("lemma: {}", self.names.literals(&clause)));
        self.clauses.push(clause);
    }

    /// A new variable for the atom, if there is one left.
    fn register_new(&mut self, atom: u32) -> Option<Var> {
        let var = self.names.next_var();
        let words = self.names.term(atom);
        let accepted = self.send(&Line::Var { var, atom }, &words) == Answer::Ok;
        accepted.then(|| {
            self.register(var, atom);
            var
        })
    }

    /// Sends a line and shows it with its answer.
    fn send(&mut self, line: &Line, words: &str) -> Answer {
        let answer = self.session.send(line);
        if let Answer::Term(number) = answer {
            self.terms = self.terms.max(number + 1);
        }
        self.show(line, &answer, words);
        answer
    }

    fn show(&mut self, line: &Line, answer: &Answer, words: &str) {
        self.note(&format!("{:<16} {:<26} {words}", line.to_string(), answer.to_string()));
    }

    /// A line of the trace, indented by level.
    fn note(&mut self, words: &str) {
        let indent = "    ".repeat(self.level as usize);
        (self.print)(format!("{indent}{words}").trim_end());
    }
}

fn literal_of(leaf: &Leaf) -> Lit {
    match leaf {
        Leaf::Asserted(literal) => *literal,
        Leaf::Interface { .. } => unreachable!("the search sends no iface line"),
    }
}
