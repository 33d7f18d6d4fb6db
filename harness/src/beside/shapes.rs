//! What the scripts of the benchmark are built from. Each line goes to the definition as it is written, so that
//! terms and lemmas are named by the numbers that they get.

use oracle::answer::Answer;
use oracle::rng::Rng;
use oracle::run::{MOST_OUTPUT, MOST_SCRIPT};
use oracle::writer::Writer;

pub struct Shape {
    pub w: Writer,
    rng: Rng,
    /// The symbol of a predicate of the datatype.
    predicate: usize,
    /// The next free variable.
    variables: usize,
}

impl Shape {
    pub fn empty() -> Shape {
        Shape { w: Writer::new(), rng: Rng::new(7), predicate: 0, variables: 0 }
    }

    fn declared(predicate: usize, lines: &[&str]) -> Shape {
        let mut shape = Shape { predicate, ..Shape::empty() };
        for line in lines {
            shape.w.line(line);
        }
        shape
    }

    /// Natural numbers: 0 zero, 1 its tester, 2 successor, 3 its tester, 4 predecessor; a constant (5), a function (6),
    /// a predicate (7) and a function of two arguments (8).
    pub fn numbers() -> Shape {
        Shape::declared(7, &["sort=d", "ctor=1", "ctor=1,1", "fun=1", "fun=1,1", "fun=0,1", "fun=1,1,1", "close=1"])
    }

    /// Natural numbers as above, but so many constants (5 and on), which are the terms from 0 on, and a predicate.
    pub fn constants(count: usize) -> Shape {
        let mut shape = Shape::declared(5 + count, &["sort=d", "ctor=1", "ctor=1,1"]);
        for _ in 0..count {
            shape.w.line("fun=1");
        }
        shape.w.line("fun=0,1");
        shape.w.line("close=1");
        for symbol in 5..5 + count {
            shape.w.numbers("term", &[symbol]);
        }
        shape
    }

    /// Binary trees: 0 leaf, 2 node of two trees; a constant (6), a function (7), a predicate (8).
    pub fn trees() -> Shape {
        Shape::declared(8, &["sort=d", "ctor=1", "ctor=1,1,1", "fun=1", "fun=1,1", "fun=0,1", "close=1"])
    }

    /// Pairs of another sort: 0 the pair, 1 its tester, 2 and 3 its selectors; a constant (4) and a function (5) of the
    /// other sort, a predicate (6) of pairs.
    pub fn pairs() -> Shape {
        Shape::declared(6, &["sort=d", "sort=u", "ctor=1,2,2", "fun=2", "fun=2,2", "fun=0,1", "close=1"])
    }

    /// A record of 16 fields (0), a plain constructor (18), constants (20, 21: terms 0 and 1), functions of 16 places
    /// (22) and of one (23).
    pub fn wide() -> Shape {
        let mut shape = Shape::declared(0, &["sort=d"]);
        shape.w.numbers("ctor", &[1; 17]);
        for line in ["ctor=1", "fun=1", "fun=1"] {
            shape.w.line(line);
        }
        shape.w.numbers("fun", &[1; 17]);
        for line in ["fun=1,1", "close=1", "term=20", "term=21"] {
            shape.w.line(line);
        }
        shape
    }

    pub fn script(self) -> Vec<u8> {
        self.w.script
    }

    /// Is there room for a line and its answer, each of at most this length?
    fn room(&self, line: usize, answer: usize) -> bool {
        self.w.script.len() + line < MOST_SCRIPT && self.w.output + answer < MOST_OUTPUT
    }

    /// Lines of one kind until the script or its answers are as long as may be.
    pub fn fill(&mut self, mut line: impl FnMut(&mut Rng) -> String) {
        while self.room(80, 80) {
            let line = line(&mut self.rng);
            self.w.line(&line);
        }
    }

    /// A full check, or none if it would be refused: the session around the published solver then builds itself anew,
    /// which is not the published solver's time.
    fn check(&mut self) -> Option<Answer> {
        let (script, output) = (self.w.script.len(), self.w.output);
        let answer = self.w.line("check=1");
        if matches!(answer, Answer::Refused(_)) {
            self.w.script.truncate(script);
            self.w.output = output;
            return None;
        }
        Some(answer)
    }

    /// At most so many full checks, as long as there is room for an answer like the last.
    pub fn checks(&mut self, most: usize) {
        let mut length = 16;
        for _ in 0..most {
            if !self.room(10, length + 200) {
                return;
            }
            let Some(answer) = self.check() else {
                return;
            };
            length = answer.to_string().len();
        }
    }

    /// At most so many full checks; the last atom of each lemma is registered and holds from then on.
    pub fn follow_checks(&mut self, most: usize) {
        for _ in 0..most {
            if !self.room(100, 1_000) || self.w.session.term_count() > 960 || self.variables > 1_000 {
                return;
            }
            match self.check() {
                Some(Answer::Split { atoms, .. }) => self.hold(atoms[atoms.len() - 1]),
                _ => return,
            }
        }
    }

    fn hold(&mut self, atom: usize) {
        let variable = self.register(atom);
        let equation = self.w.session.symbol_of(atom).is_none();
        self.w.numbers(if equation { "equate" } else { "assert" }, &[2 * variable]);
    }

    pub fn register(&mut self, atom: usize) -> usize {
        let variable = self.variables;
        self.w.numbers("var", &[variable, atom]);
        self.variables += 1;
        variable
    }

    /// Registers the predicate on a term.
    pub fn watch(&mut self, t: usize) {
        let atom = self.w.term("term", &[self.predicate, t]).expect("a term of the datatype, and room");
        self.register(atom);
    }

    pub fn register_equation(&mut self, t: usize, u: usize) -> usize {
        let atom = self.w.term("eq", &[t, u]).expect("two terms of one sort, and room");
        self.register(atom)
    }

    fn equate(&mut self, t: usize, u: usize) {
        let variable = self.register_equation(t, u);
        self.w.numbers("equate", &[2 * variable]);
    }

    fn join(&mut self, t: usize, u: usize, tags: usize) {
        let tag = self.rng.below(tags);
        let sides = if self.rng.chance(50) { [t, u] } else { [u, t] };
        self.w.numbers("iface", &[sides[0], sides[1], 0, tag]);
    }

    /// A constant and a unary symbol over it again and again, so many terms.
    pub fn tower(&mut self, symbol: usize, count: usize) -> Vec<usize> {
        let mut terms = vec![self.w.term("term", &[5]).expect("the constant")];
        while terms.len() < count {
            let last = terms[terms.len() - 1];
            terms.push(self.w.term("term", &[symbol, last]).expect("a unary symbol, and room"));
        }
        terms
    }

    pub fn join_in_a_row(&mut self, members: &[usize], shuffled: bool, tags: usize) {
        let mut links: Vec<usize> = (1..members.len()).collect();
        if shuffled {
            self.rng.shuffle(&mut links);
        }
        for link in links {
            self.join(members[link - 1], members[link], tags);
        }
    }

    pub fn join_at_random(&mut self, members: &[usize], tags: usize) {
        for link in 1..members.len() {
            let other = self.rng.below(link);
            self.join(members[other], members[link], tags);
        }
    }

    pub fn equate_in_a_row(&mut self, members: &[usize]) {
        for link in 1..members.len() {
            self.equate(members[link - 1], members[link]);
        }
    }

    /// Joins zero with one term and its successor with another.
    pub fn clash_between(&mut self, t: usize, u: usize) {
        let zero = self.w.term("term", &[0]).expect("zero");
        let one = self.w.term("term", &[2, zero]).expect("its successor");
        self.equate(zero, t);
        self.equate(one, u);
    }

    /// Joins zero with one term; the successor's tester on the other is asserted as often as there is room, at most
    /// `most` times. Each time is a conflict.
    pub fn assert_against(&mut self, t: usize, u: usize, most: usize) {
        let zero = self.w.term("term", &[0]).expect("zero");
        self.equate(zero, t);
        let tester = self.w.term("term", &[3, u]).expect("the tester");
        let variable = self.register(tester);
        let mut length = 16;
        for _ in 0..most {
            if !self.room(16, length + 200) {
                return;
            }
            length = self.w.numbers("assert", &[2 * variable]).to_string().len();
        }
    }

    /// Two towers of a function over joined terms, each floor joined by congruence, and a clash between their tops.
    /// With two arguments the floors below are shared.
    pub fn towers_joined(&mut self, height: usize, shared: bool) {
        let mut left = self.w.term("term", &[5]).expect("the constant");
        let mut right = self.w.term("term", &[4, left]).expect("its predecessor");
        self.w.numbers("iface", &[left, right, 9, 9]);
        let floor = |t| if shared { vec![8, t, t] } else { vec![6, t] };
        for _ in 0..height {
            left = self.w.term("term", &floor(left)).expect("room");
            right = self.w.term("term", &floor(right)).expect("room");
            self.w.numbers("cong", &[left, right]);
        }
        self.clash_between(left, right);
    }

    /// Two towers of a function of two arguments; the second arguments are joined by a leaf for each floor.
    pub fn towers_over_leaves(&mut self, height: usize) {
        let arguments = self.tower(6, 2 * height);
        let mut left = arguments[0];
        let mut right = self.w.term("term", &[4, left]).expect("its predecessor");
        self.w.numbers("iface", &[left, right, 9, 9]);
        for floor in 0..height {
            let (t, u) = (arguments[2 * floor], arguments[2 * floor + 1]);
            self.w.numbers("iface", &[t, u, 1, floor]);
            left = self.w.term("term", &[8, left, t]).expect("room");
            right = self.w.term("term", &[8, right, u]).expect("room");
            self.w.numbers("cong", &[left, right]);
        }
        self.clash_between(left, right);
    }

    /// A row of joined terms, and the predecessors of each two neighbours joined by congruence.
    pub fn ladder(&mut self, length: usize) {
        let members = self.tower(6, length);
        self.join_in_a_row(&members, true, 100_000);
        let over: Vec<usize> = members.iter().map(|t| self.w.term("term", &[4, *t]).expect("room")).collect();
        for two in over.windows(2) {
            self.w.numbers("cong", two);
        }
        self.clash_between(over[0], over[length - 1]);
    }

    /// An application over the two constants, told apart by the bits of `code`.
    pub fn wide_application(&mut self, code: usize) -> usize {
        let mut numbers = vec![22];
        numbers.extend((0..16).map(|bit| (code >> bit) & 1));
        self.w.term("term", &numbers).expect("room")
    }

    /// Wide applications joined by congruence in a row, and a clash between its ends.
    pub fn wide_row(&mut self, count: usize) {
        self.w.line("iface=0,1,9,9");
        let row: Vec<usize> = (0..count).map(|code| self.wide_application(code)).collect();
        for two in row.windows(2) {
            self.w.numbers("cong", two);
        }
        let plain = self.w.term("term", &[18]).expect("the plain constructor");
        let record = self.w.term("term", &[0; 17]).expect("the record");
        self.equate(plain, row[0]);
        self.equate(record, row[count - 1]);
    }

    /// So many terms without a constructor and their successors, all watched.
    pub fn successors(&mut self, count: usize) -> (Vec<usize>, Vec<usize>) {
        let members = self.tower(6, count);
        let successors: Vec<usize> = members.iter().map(|t| self.w.term("term", &[2, *t]).expect("room")).collect();
        for t in &successors {
            self.watch(*t);
        }
        (members, successors)
    }

    /// Each term is joined with the successor of the next; the last with that of the first, or with zero.
    pub fn ring(&mut self, length: usize, closed: bool, tags: usize) {
        let (members, successors) = self.successors(length);
        for link in 0..length - 1 {
            self.join(members[link], successors[link + 1], tags);
        }
        if closed {
            self.join(members[length - 1], successors[0], tags);
        } else {
            let zero = self.w.term("term", &[0]).expect("zero");
            self.equate(zero, members[length - 1]);
        }
    }

    /// Terms joined with nodes over the terms of the next floor; the last floor with leaves, or the last of its terms
    /// with the first node.
    pub fn tree(&mut self, depth: usize, closed: bool) {
        let count = (1 << (depth + 1)) - 1;
        let mut terms = vec![self.w.term("term", &[6]).expect("the constant")];
        while terms.len() < count {
            let last = terms[terms.len() - 1];
            terms.push(self.w.term("term", &[7, last]).expect("room"));
        }
        let leaf = self.w.term("term", &[0]).expect("the leaf");
        let mut top = leaf;
        for t in (0..count).rev() {
            let application = if 2 * t + 2 < count {
                self.w.term("term", &[2, terms[2 * t + 1], terms[2 * t + 2]]).expect("room")
            } else {
                leaf
            };
            if closed && t == count - 1 {
                continue;
            }
            self.watch(application);
            self.join(terms[t], application, 1_000);
            top = application;
        }
        if closed {
            self.join(terms[count - 1], top, 1_000);
        }
    }

    /// So many successors of different terms in so many classes.
    pub fn crowd(&mut self, count: usize, parts: usize) {
        let (_, successors) = self.successors(count);
        for part in 0..parts {
            let members: Vec<usize> = successors.iter().copied().skip(part).step_by(parts).collect();
            self.join_at_random(&members, 1_000);
        }
    }

    /// A crowd in one class whose fields are all zero, and whose selectors are joined with their fields: no rule has a
    /// lemma left.
    pub fn collapsed_crowd(&mut self, count: usize) {
        let (members, successors) = self.successors(count);
        self.join_at_random(&successors, 1_000);
        self.join_at_random(&members, 1_000);
        for (member, successor) in members.iter().zip(&successors) {
            let selector = self.w.term("term", &[4, *successor]).expect("room");
            self.join(selector, *member, 1_000);
        }
        let zero = self.w.term("term", &[0]).expect("zero");
        self.equate(zero, members[0]);
    }

    /// So many pairs of different terms in one class.
    pub fn crowd_of_pairs(&mut self, count: usize) {
        let mut t = self.w.term("term", &[4]).expect("the constant");
        let mut pairs = Vec::new();
        for _ in 0..count {
            let u = self.w.term("term", &[5, t]).expect("room");
            let pair = self.w.term("term", &[0, t, u]).expect("room");
            self.watch(pair);
            pairs.push(pair);
            t = u;
        }
        self.join_at_random(&pairs, 1_000);
    }

    /// Testers of a successor and of zero by turns on the first terms. Returns their variables.
    pub fn register_testers(&mut self, count: usize) -> Vec<usize> {
        (0..count)
            .map(|t| {
                let atom = self.w.term("term", &[1 + 2 * (t % 2), t]).expect("room");
                self.register(atom)
            })
            .collect()
    }

    /// Asserts a tester on each of the first terms.
    pub fn assert_testers(&mut self, count: usize, tester: usize) {
        for t in 0..count {
            let atom = self.w.term("term", &[tester, t]).expect("room");
            self.hold(atom);
        }
    }

    /// Levels with so many joins each, and back to a lower one, until the script is full. If `every` is not 0, a check
    /// stands in so many lines.
    pub fn up_and_down(&mut self, members: &[usize], joins: usize, every: usize) {
        let mut lines = 0;
        while self.room(1_000, 1_000 + 8 * joins) && self.w.script.len() + 24 * joins < MOST_SCRIPT {
            if self.w.session.level() < 60 && self.rng.chance(60) {
                self.w.line("push=1");
                for _ in 0..joins {
                    let (t, u) = (self.rng.below(members.len()), self.rng.below(members.len()));
                    self.join(members[t], members[u], 100);
                }
            } else {
                let level = self.rng.below(self.w.session.level() + 1);
                self.w.numbers("pop", &[level]);
            }
            lines += 1 + joins;
            if every > 0 && lines >= every {
                lines = 0;
                self.check();
            }
        }
    }

    /// A row of joined terms; a join at either end turns it as a whole.
    pub fn turned_row(&mut self, members: &[usize]) {
        let middle = members.len() - 2;
        for link in 1..middle {
            self.w.numbers("iface", &[members[link - 1], members[link], 0, link]);
        }
        while self.room(200, 200) {
            self.w.line("push=1");
            self.w.numbers("iface", &[members[0], members[middle], 0, 1]);
            self.w.numbers("iface", &[members[middle - 1], members[middle + 1], 0, 2]);
            self.w.line("pop=0");
        }
    }
}
