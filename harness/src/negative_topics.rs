//! Negative testers: in `assert` and in a check, beside positive ones, by level, by one variable of two, against one of
//! several constructors of a class, and on classes without a constructor.

use crate::clash_topics::{crowd, crowd_of};
use crate::plans::Plan;
use crate::reacting;
use crate::rng::Rng;
use crate::search::{self, Search};

/// Each topic with the number of its scripts in the fixed list.
pub const TOPICS: &[(Plan, usize)] = &[
    (asserted_late, 8),
    (asserted_early, 11),
    (both_signs, 8),
    (taken_back, 10),
    (marked_late, 6),
    (without_constructor, 5),
    (constructors_of_lemmas, 5),
];

/// A script about negative testers, mostly on one of the topics.
pub fn negative(rng: &mut Rng) -> Vec<u8> {
    match rng.below(100) {
        0..=79 => {
            let (topic, _) = TOPICS[rng.below(TOPICS.len())];
            search::on_negative_topic(rng, topic).script
        }
        80..=89 => search::saying_no(rng).script,
        _ => reacting::saying_no(rng).script,
    }
}

/// A tester atom with two variables.
struct Tester {
    variables: [usize; 2],
}

impl Tester {
    fn on(s: &mut Search, place: usize, t: usize) -> Tester {
        let (atom, first) = s.register_tester(place, t);
        Tester { variables: [first, s.register(atom)] }
    }

    /// Asserts that it does not hold, by one variable, now and then by both.
    fn deny(&self, s: &mut Search) {
        let first = s.rng.below(2);
        s.w.numbers("assert", &[2 * self.variables[first] + 1]);
        if s.rng.chance(25) {
            s.w.numbers("assert", &[2 * self.variables[1 - first] + 1]);
        }
    }

    /// Asserts that it holds.
    fn claim(&self, s: &mut Search) {
        let variable = self.variables[s.rng.below(2)];
        s.w.numbers("assert", &[2 * variable]);
    }
}

/// Testers of each constructor of the sort, those with a field of the sort twice, each on one of the terms, in another
/// order than that of their atoms.
fn testers(s: &mut Search, sort: usize, terms: &[usize]) -> Vec<Tester> {
    let mut places = [s.constructors_with(sort, 0), s.constructors_with(sort, 1)].concat();
    s.rng.shuffle(&mut places);
    let on_any = |place| {
        let t = s.among(terms);
        Tester::on(s, place, t)
    };
    let mut testers: Vec<Tester> = places.into_iter().map(on_any).collect();
    s.rng.shuffle(&mut testers);
    testers
}

/// One class of marked applications, whose constructors are mixed as their numbers are.
fn mixed_class(s: &mut Search, sort: usize) -> Vec<usize> {
    let constants = s.constants(sort, 4);
    let constructors = s.constructors_with(sort, 0);
    let size = s.rng.between(2, 4);
    let class = s.mixed_classes(&constructors, &constants, &[size]).concat();
    s.mark(&class);
    for (t, u) in s.tree(&class) {
        s.tie_by_way(t, u, 1);
    }
    class
}

/// Denied when the class has its constructors, mostly several: the lowest application of the tester's constructor need
/// not be the lowest. No check comes before.
pub fn asserted_late(s: &mut Search) {
    let sort = s.any_datatype();
    let terms = s.constants(sort, 2);
    if s.rng.chance(50) {
        s.push();
    }
    let class = mixed_class(s, sort);
    for &t in &terms {
        let application = s.among(&class);
        s.tie_by_way(t, application, 2);
    }
    for tester in testers(s, sort, &[terms.as_slice(), &class].concat()) {
        tester.deny(s);
    }
    s.only_check(1);
    s.w.line("pop=0");
    s.only_check(2);
}

/// One constructor's testers denied in another order than that of their atoms, at several levels; then the terms get
/// this constructor.
pub fn asserted_early(s: &mut Search) {
    let sort = s.any_datatype();
    let terms = s.constants(sort, 3);
    let constructor = s.any_constructor(sort, 1);
    let mut testers: Vec<Tester> = terms.iter().map(|&t| Tester::on(s, constructor, t)).collect();
    s.rng.shuffle(&mut testers);
    for tester in &testers {
        if s.rng.chance(40) {
            s.push();
        }
        tester.deny(s);
    }
    s.push();
    let application = crowd_of(s, sort, constructor);
    for &t in &terms {
        s.tie_by_way(t, application, 1);
    }
    s.only_check(1);
    let level = s.w.session.level();
    let target = s.rng.below(level);
    s.w.numbers("pop", &[target]);
    s.only_check(1);
    testers[0].deny(s);
    s.tie_by_way(terms[0], application, 1);
    s.only_check(1);
}

/// Some testers claimed and some denied, now and then both; the tester clash comes before the denied ones.
pub fn both_signs(s: &mut Search) {
    let sort = s.any_datatype();
    let terms = s.constants(sort, 2);
    let testers = testers(s, sort, &terms);
    for tester in &testers {
        match s.rng.below(10) {
            0..=3 => tester.claim(s),
            4..=7 => tester.deny(s),
            8 => {
                tester.deny(s);
                tester.claim(s);
            }
            _ => {
                tester.claim(s);
                tester.deny(s);
            }
        }
        if s.rng.chance(30) {
            s.push();
        }
    }
    let application = crowd(s, sort);
    for &t in &terms {
        s.tie_by_way(t, application, 1);
        s.only_check(1);
    }
    s.pop();
    s.only_check(2);
}

/// Denied at one level or two, by either variable, taken back and denied again; often claimed before.
pub fn taken_back(s: &mut Search) {
    let sort = s.any_datatype();
    let t = s.constants(sort, 1)[0];
    let constructor = s.any_constructor(sort, 1);
    let application = crowd_of(s, sort, constructor);
    let tester = Tester::on(s, constructor, t);
    if s.rng.chance(50) {
        tester.claim(s);
    }
    for _ in 0..s.rng.between(1, 3) {
        s.push();
        if s.rng.chance(70) {
            tester.deny(s);
        }
    }
    let level = s.w.session.level();
    let target = s.rng.below(level);
    s.w.numbers("pop", &[target]);
    if s.rng.chance(70) {
        tester.deny(s);
    }
    s.push();
    s.tie_by_way(t, application, 1);
    s.only_check(1);
    s.w.line("pop=0");
    s.only_check(1);
    s.tie_by_way(t, application, 1);
    tester.deny(s);
    s.only_check(1);
}

/// Denied beside an application of its constructor that is marked only later.
pub fn marked_late(s: &mut Search) {
    let sort = s.any_datatype();
    let t = s.constants(sort, 1)[0];
    let constructor = s.any_constructor(sort, 0);
    let pool = s.constants(sort, 3);
    let application = s.construct(constructor, &pool);
    let tester = Tester::on(s, constructor, t);
    if s.rng.chance(50) {
        s.push();
    }
    s.tie_by_way(t, application, 1);
    tester.deny(s);
    s.only_check(1);
    s.mark(&[application]);
    s.only_check(1);
    if s.rng.chance(50) {
        s.w.line("pop=0");
        tester.deny(s);
        s.only_check(1);
    }
}

/// Denied on terms whose class has no constructor: the check goes on to its other rules.
pub fn without_constructor(s: &mut Search) {
    let sort = s.any_datatype();
    let terms = s.constants(sort, 2);
    let testers = testers(s, sort, &terms);
    for tester in &testers {
        if s.rng.chance(60) {
            tester.deny(s);
        }
    }
    if s.rng.chance(40) {
        s.tie(terms[0], terms[1]);
    }
    s.only_check(2);
    if s.rng.chance(50) {
        testers[0].claim(s);
    }
    s.settle(3);
}

/// A claimed tester's term gets its constructor by the lemma of a check; the tester, or that of the lemma, is denied.
pub fn constructors_of_lemmas(s: &mut Search) {
    let sort = s.any_datatype();
    let terms = s.constants(sort, 2);
    let place = s.any_constructor(sort, 0);
    let tester = Tester::on(s, place, terms[0]);
    if s.rng.chance(50) {
        s.tie_by_way(terms[0], terms[1], 1);
    }
    s.push();
    tester.claim(s);
    let denied_before = s.rng.chance(50);
    let other = Tester::on(s, place, terms[1]);
    if denied_before {
        other.deny(s);
    }
    s.settle(2);
    if !denied_before {
        other.deny(s);
    }
    s.w.line("pop=0");
    tester.deny(s);
    s.settle(3);
}
