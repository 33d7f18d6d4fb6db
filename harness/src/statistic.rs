//! Which rules, answers and refusals a batch of scripts meets. The rule behind an answer is told from the answer's
//! form and the session; a second equality engine, with a label of its own for each merge, tells how deep an
//! explanation goes through congruences. Nothing here takes part in answering.

use crate::answer::{Answer, Leaf};
use crate::definition::{Role, Session};
use crate::run;
use crate::script::{self, Line};
use shinri_core::{TermId, TheoryJust};
use shinri_theory::types::{EqJust, EqLeaf};
use shinri_theory::EqualityEngine;
use std::collections::{BTreeMap, BTreeSet};
use unequal::{cited_unequal, Said};

mod closing;
mod details;
mod unequal;

/// How often each thing was met, and in how many scripts.
#[derive(Default)]
pub struct Statistic {
    pub scripts: usize,
    met: BTreeMap<String, Count>,
}

#[derive(Default)]
struct Count {
    times: usize,
    scripts: usize,
}

/// What a run over the script meets, and how often.
pub fn met_by(script: &[u8]) -> BTreeMap<String, usize> {
    let mut watcher = Watcher::default();
    let run = run::watched(script, |session, line, answer| watcher.see(session, line, answer));
    watcher.count(format!("result {}", run.result));
    if run.output.len() == run::MOST_OUTPUT {
        watcher.count(format!("result {}, the output is full", run.result));
    }
    if script.len() == run::MOST_SCRIPT {
        watcher.count("the script is full");
    }
    if run.refused == 0 && run.result == 0 {
        watcher.count("script without refusals");
    }
    watcher.times
}

impl Statistic {
    pub fn add(&mut self, met: BTreeMap<String, usize>) {
        self.scripts += 1;
        for (name, times) in met {
            let count = self.met.entry(name).or_default();
            count.times += times;
            count.scripts += 1;
        }
    }

    /// Adds what was met by other scripts.
    pub fn join(&mut self, other: Statistic) {
        self.scripts += other.scripts;
        for (name, met) in other.met {
            let count = self.met.entry(name).or_default();
            count.times += met.times;
            count.scripts += met.scripts;
        }
    }

    pub fn scripts_meeting(&self, name: &str) -> usize {
        self.met.get(name).map_or(0, |count| count.scripts)
    }

    pub fn print(&self) {
        println!("{} scripts", self.scripts);
        println!("{:>10} {:>10}  what", "times", "scripts");
        for (name, count) in &self.met {
            println!("{:>10} {:>10}  {name}", count.times, count.scripts);
        }
    }
}

/// Follows one run.
#[derive(Default)]
struct Watcher {
    times: BTreeMap<String, usize>,
    /// Whether question 10 refused a line.
    refused_close: bool,
    labels: EqualityEngine,
    /// The argument pairs of each labelled merge; none for a literal or an interface leaf.
    reasons: Vec<Vec<(usize, usize)>>,
    collected: BTreeSet<usize>,
    /// Marked constructor applications.
    constructors: BTreeSet<usize>,
    watched: BTreeSet<usize>,
    went_back: bool,
    /// The first variable of each registered atom.
    first_variable: BTreeMap<usize, u32>,
    /// Testers asserted so far, and atoms that collapse has handed out.
    asserted: BTreeSet<usize>,
    collapsed: BTreeSet<usize>,
    /// The literals that `differ` lines said, and the negative ones of equations that were asserted.
    said: BTreeMap<u32, Said>,
    denied_equations: BTreeSet<u32>,
    /// Whether the explanation just followed goes through a pair after the first of a congruence.
    later_pair: bool,
}

/// The edges of a ring, from field to application, and whether the walk that found it started on it.
struct Ring {
    edges: Vec<(usize, usize)>,
    from_start: bool,
}

/// One step of the walk that looks for a ring: a class, its application, and the field that led there.
struct Step {
    class: usize,
    application: usize,
    via: usize,
}

impl Watcher {
    fn see(&mut self, session: &Session, line: &[u8], answer: &Answer) {
        if let Answer::Refused(question) = answer {
            return self.see_refusal(session, *question, line);
        }
        self.count(format!("answer {}", key(answer.to_string().as_bytes())));
        match script::read(line).expect("an accepted line reads") {
            Line::Close => self.see_close(session),
            Line::Var { variable, atom } => {
                self.first_variable.entry(atom as usize).or_insert(variable);
                self.collect(session, atom as usize);
            }
            Line::Equate(literal) => {
                let sides = session.arguments_of(session.atom_of(literal / 2));
                self.join(sides[0], sides[1], Vec::new());
            }
            Line::Cong(t, u) => {
                let (left, right) = (session.arguments_of(t as usize), session.arguments_of(u as usize));
                self.join(t as usize, u as usize, left.into_iter().zip(right).collect());
            }
            Line::Iface { sides, .. } => self.join(sides.0 as usize, sides.1 as usize, Vec::new()),
            Line::Push => self.labels.push(),
            Line::Pop(level) => self.go_back(level as usize),
            Line::Assert(literal) => self.see_assert(session, literal, answer),
            Line::Differ(literal) => self.see_differ(session, literal),
            Line::Check { full: true } => self.see_check(session, answer),
            _ => {}
        }
        self.note_equal_sides(session);
    }

    fn count(&mut self, name: impl Into<String>) {
        *self.times.entry(name.into()).or_default() += 1;
    }

    fn see_refusal(&mut self, session: &Session, question: u32, line: &[u8]) {
        self.count(format!("refused {question:>2}"));
        if question == 10 {
            self.see_refused_close(session);
        }
        if let (13, Some(Line::Differ(literal))) = (question, script::read(line)) {
            self.see_refused_differ(session, literal);
        }
        if script::read(line).is_some() {
            self.count(format!("refused {question:>2} {}", key(line)));
        }
    }

    fn node(&mut self, t: usize) -> shinri_theory::ENodeId {
        let t = TermId::new(t as u32 + 1).expect("not 0");
        self.labels.intern(t)
    }

    fn class(&mut self, t: usize) -> usize {
        let node = self.node(t);
        self.labels.find(node).index()
    }

    fn join(&mut self, t: usize, u: usize, pairs: Vec<(usize, usize)>) {
        let label = TheoryJust { theory: 0, tag: self.reasons.len() as u32 };
        self.reasons.push(pairs);
        let (a, b) = (self.node(t), self.node(u));
        self.labels.merge(a, b, EqJust::Interface(label)).expect("no disequalities");
        self.labels.drain_merges(&mut Vec::new());
    }

    fn go_back(&mut self, level: usize) {
        if level < self.labels.level() {
            self.labels.pop(level);
            self.went_back = true;
            self.go_back_unequal(level);
        }
    }

    fn collect(&mut self, session: &Session, t: usize) {
        if !self.collected.insert(t) {
            return;
        }
        self.mark(session, t);
        for argument in session.arguments_of(t) {
            self.collect(session, argument);
        }
    }

    fn mark(&mut self, session: &Session, t: usize) {
        if session.is_datatype(t) {
            self.watched.insert(t);
        }
        if matches!(session.role_of(t), Some(Role::Constructor)) {
            self.constructors.insert(t);
        }
    }

    fn see_assert(&mut self, session: &Session, literal: u32, answer: &Answer) {
        if literal % 2 == 0 {
            self.asserted.insert(session.atom_of(literal / 2));
        } else if session.is_equation(literal) {
            self.denied_equations.insert(literal);
        }
        if let Answer::Conflict(leaves) = answer {
            self.see_conflict(leaves);
            self.see_tester(session, leaves);
            if literal % 2 == 1 {
                self.count("rule negative tester in assert");
                self.see_negative(session, literal);
            } else {
                self.count("rule assert conflict");
            }
        }
    }

    fn see_check(&mut self, session: &Session, answer: &Answer) {
        if !matches!(answer, Answer::Conflict(_)) {
            self.see_past_clashes(session, answer);
        }
        match answer {
            Answer::Conflict(leaves) => self.see_check_conflict(session, leaves),
            Answer::Split { atoms, guards, phases } => {
                let rule = rule_of_split(session, atoms, guards, phases);
                match rule {
                    "instantiation" => self.collect(session, atoms[0]),
                    "collapse" => self.see_collapse(session, atoms[0]),
                    _ => {}
                }
                self.count(format!("rule {rule}"));
            }
            Answer::Unknown => self.count("rule unknown"),
            Answer::Sat => self.count("rule sat"),
            _ => unreachable!("not an answer to a check"),
        }
    }

    fn see_conflict(&mut self, leaves: &[Leaf]) {
        if leaves.iter().any(|leaf| matches!(leaf, Leaf::Interface { .. })) {
            self.count("conflict with interface leaf");
        }
        if self.went_back {
            self.count("conflict after a pop");
        }
        if leaves.len() >= 10 {
            self.count("conflict of 10 leaves or more");
        }
    }

    fn see_check_conflict(&mut self, session: &Session, leaves: &[Leaf]) {
        self.see_conflict(leaves);
        if let Some(literal) = cited_tester(session, leaves) {
            self.see_tester(session, leaves);
            return if literal % 2 == 1 {
                self.count("rule negative tester in check");
                self.see_negative(session, literal);
                self.see_negative_clash(session);
                self.see_clash_before_unequal(session, "negative tester");
            } else {
                self.count("rule tester clash");
                self.see_tester_clash(session, leaves);
                self.see_clash_before_unequal(session, "tester clash");
            };
        }
        if let Some(literal) = cited_unequal(session, leaves) {
            return self.see_unequal(session, leaves, literal);
        }
        if let Some((p, q)) = self.clash(session) {
            self.count("rule constructor clash");
            self.see_clashing_classes(session);
            self.see_clash_before_unequal(session, "constructor clash");
            self.see_depth(&[(p, q)]);
            return;
        }
        self.count("rule ring");
        let ring = self.ring(session).expect("a conflict that is no clash is a ring");
        self.count(match ring.edges.len() {
            length @ 1..=4 => format!("ring of length {length}"),
            _ => "ring of length 5 or more".into(),
        });
        self.see_ring(session, &ring);
        self.see_depth(&ring.edges);
    }

    /// The depth of a tester's conflict: from the tester's term to the application of its class that it is held
    /// against.
    fn see_tester(&mut self, session: &Session, leaves: &[Leaf]) {
        let Some(Leaf::Literal(literal)) = leaves.first() else {
            return;
        };
        let atom = session.atom_of(literal / 2);
        let t = session.arguments_of(atom)[0];
        let class = self.class(t);
        let application = if literal % 2 == 1 { self.own(session, atom) } else { self.lowest(class) };
        if let Some(application) = application {
            self.see_depth(&[(t, application)]);
        }
    }

    fn lowest(&mut self, class: usize) -> Option<usize> {
        let constructors: Vec<usize> = self.constructors.iter().copied().collect();
        constructors.into_iter().find(|&application| self.class(application) == class)
    }

    fn clash(&mut self, session: &Session) -> Option<(usize, usize)> {
        let constructors: Vec<usize> = self.constructors.iter().copied().collect();
        for (place, &p) in constructors.iter().enumerate() {
            for &q in &constructors[place + 1..] {
                if session.symbol_of(p) != session.symbol_of(q) && self.class(p) == self.class(q) {
                    return Some((p, q));
                }
            }
        }
        None
    }

    /// The first ring.
    fn ring(&mut self, session: &Session) -> Option<Ring> {
        let mut done = BTreeSet::new();
        let watched: Vec<usize> = self.watched.iter().copied().collect();
        watched.into_iter().find_map(|t| self.ring_from(session, t, &mut Vec::new(), &mut done))
    }

    fn ring_from(
        &mut self,
        session: &Session,
        via: usize,
        path: &mut Vec<Step>,
        done: &mut BTreeSet<usize>,
    ) -> Option<Ring> {
        let class = self.class(via);
        if let Some(entry) = path.iter().position(|step| step.class == class) {
            let closing = (via, path[entry].application);
            let others = path[entry + 1..].iter().map(|step| (step.via, step.application));
            return Some(Ring { edges: std::iter::once(closing).chain(others).collect(), from_start: entry == 0 });
        }
        if done.contains(&class) {
            return None;
        }
        if let Some(application) = self.lowest(class) {
            path.push(Step { class, application, via });
            for field in session.arguments_of(application).into_iter().rev().filter(|&f| session.is_datatype(f)) {
                let ring = self.ring_from(session, field, path, done);
                if ring.is_some() {
                    return ring;
                }
            }
            path.pop();
        }
        done.insert(class);
        None
    }

    /// Counts how deep an explanation goes, and returns it.
    fn see_depth(&mut self, pairs: &[(usize, usize)]) -> usize {
        let mut seen = BTreeSet::new();
        self.later_pair = false;
        let depth = pairs.iter().map(|&(t, u)| self.depth(t, u, &mut seen)).max().unwrap_or(0);
        match depth {
            0 => {}
            1 => self.count("conflict through a congruence"),
            _ => self.count("conflict through nested congruences"),
        }
        if self.later_pair {
            self.count("conflict through a later pair of a congruence");
        }
        depth
    }

    /// How many congruences lie one within the other in the explanation of a pair.
    fn depth(&mut self, t: usize, u: usize, seen: &mut BTreeSet<(usize, usize)>) -> usize {
        if t == u || !seen.insert((t.min(u), t.max(u))) {
            return 0;
        }
        let mut leaves = Vec::new();
        let (a, b) = (self.node(t), self.node(u));
        self.labels.explain(a, b, &mut leaves);
        let mut depth = 0;
        for leaf in leaves {
            let EqLeaf::Interface(TheoryJust { tag, .. }) = leaf else {
                continue;
            };
            for (place, (s, r)) in self.reasons[tag as usize].clone().into_iter().enumerate() {
                self.later_pair |= place > 0 && s != r;
                depth = depth.max(1 + self.depth(s, r, seen));
            }
        }
        depth
    }
}

/// What stands before the equals sign.
fn key(line: &[u8]) -> String {
    let key = line.split(|&byte| byte == b'=').next().unwrap_or_default();
    String::from_utf8_lossy(key).into_owned()
}

/// The rule that hands out a lemma of this form.
fn rule_of_split(session: &Session, atoms: &[usize], guards: &[u32], phases: &[Option<bool>]) -> &'static str {
    if !guards.is_empty() {
        "instantiation"
    } else if !phases.is_empty() {
        "exhaustiveness"
    } else if session.symbol_of(atoms[0]).is_none() {
        "collapse"
    } else {
        "tester lemma"
    }
}

/// The literal of a tester, which a tester's conflict cites first and no other does.
fn cited_tester(session: &Session, leaves: &[Leaf]) -> Option<u32> {
    match leaves.first() {
        Some(Leaf::Literal(literal)) => {
            let role = session.role_of(session.atom_of(literal / 2));
            matches!(role, Some(Role::Tester { .. })).then_some(*literal)
        }
        _ => None,
    }
}
