//! Unequal terms: their sides equal before and after the line and for several reasons, beside the rules before and after
//! theirs, by level, by one variable of two, said twice, of any sort, and only asserted.

use crate::clash_topics::{crowd, crowd_of};
use crate::plans::Plan;
use crate::reacting;
use crate::rng::Rng;
use crate::search::{self, Search};
use crate::topics;

/// Each topic with the number of its scripts in the fixed list.
pub const TOPICS: &[(Plan, usize)] = &[
    (around_the_line, 10),
    (several, 14),
    (said_twice, 10),
    (after_clashes, 12),
    (before_lemmas, 10),
    (over_other_topics, 6),
    (of_any_sort, 6),
    (only_asserted, 5),
];

/// A script about unequal terms, mostly on one of the topics.
pub fn unequal(rng: &mut Rng) -> Vec<u8> {
    match rng.below(100) {
        0..=79 => {
            let (topic, _) = TOPICS[rng.below(TOPICS.len())];
            search::on_unequal_topic(rng, topic).script
        }
        80..=89 => search::telling_apart(rng).script,
        _ => reacting::telling_apart(rng).script,
    }
}

/// A line that joins two terms.
#[derive(Clone, Copy)]
enum Link {
    /// The variable of their equation.
    Equation(usize),
    Interface(usize, usize),
    Congruence(usize, usize),
}

impl Link {
    fn between(s: &mut Search, t: usize, u: usize) -> Link {
        if s.rng.chance(50) {
            return Link::Interface(t, u);
        }
        let atom = s.equation(t, u);
        Link::Equation(s.register(atom))
    }

    fn write(self, s: &mut Search) {
        match self {
            Link::Equation(variable) => {
                s.w.numbers("equate", &[2 * variable]);
            }
            Link::Interface(t, u) => s.tie(t, u),
            Link::Congruence(t, u) => {
                s.w.numbers("cong", &[t, u]);
            }
        }
    }
}

/// Two terms, and the lines that make them equal, each `cong` behind those that its arguments need.
struct Pair {
    ends: [usize; 2],
    links: Vec<Link>,
}

impl Pair {
    /// A way over several terms, some of them joined by congruence.
    fn new(s: &mut Search, sort: usize, depth: usize) -> Pair {
        let count = s.rng.between(2, 4);
        let stretches: Vec<Pair> = (0..count).map(|_| Pair::stretch(s, sort, depth)).collect();
        Pair::chained(s, stretches)
    }

    /// One term, or two congruent ones.
    fn stretch(s: &mut Search, sort: usize, depth: usize) -> Pair {
        if depth > 0 && s.rng.chance(40) {
            return Pair::congruent(s, sort, depth - 1);
        }
        let t = s.fresh(sort);
        Pair { ends: [t, t], links: Vec::new() }
    }

    /// Two applications of a function whose argument pairs are equal.
    fn congruent(s: &mut Search, sort: usize, depth: usize) -> Pair {
        let places = s.rng.between(1, 2);
        let functions = s.signature.functions_from(&vec![sort; places], sort);
        let function = *s.rng.pick(&functions).expect("a rich signature");
        let arguments: Vec<Pair> = (0..places).map(|_| Pair::new(s, sort, depth)).collect();
        let ends = [0, 1].map(|side| {
            let numbers = arguments.iter().map(|pair| pair.ends[side]);
            s.make(&[function].into_iter().chain(numbers).collect::<Vec<usize>>())
        });
        let links = arguments.into_iter().flat_map(|pair| pair.links).chain([Link::Congruence(ends[0], ends[1])]);
        Pair { ends, links: links.collect() }
    }

    /// The stretches one behind the other, joined in any order.
    fn chained(s: &mut Search, stretches: Vec<Pair>) -> Pair {
        let ends = [stretches[0].ends[0], stretches[stretches.len() - 1].ends[1]];
        let between = |two: &[Pair]| vec![Link::between(s, two[0].ends[1], two[1].ends[0])];
        let mut parts: Vec<Vec<Link>> = stretches.windows(2).map(between).collect();
        parts.extend(stretches.into_iter().map(|stretch| stretch.links));
        s.rng.shuffle(&mut parts);
        Pair { ends, links: parts.concat() }
    }

    fn join(&self, s: &mut Search) {
        self.links.iter().for_each(|link| link.write(s));
    }

    /// The equation of the two, its sides in either order.
    fn equation(&self, s: &mut Search) -> Equation {
        let sides = if s.rng.chance(50) { self.ends } else { [self.ends[1], self.ends[0]] };
        Equation::of(s, sides)
    }
}

/// An equation with two variables.
struct Equation {
    variables: [usize; 2],
}

impl Equation {
    fn of(s: &mut Search, sides: [usize; 2]) -> Equation {
        let atom = s.equation(sides[0], sides[1]);
        Equation { variables: [s.register(atom), s.register(atom)] }
    }

    fn literal(&self, s: &mut Search) -> usize {
        2 * self.variables[s.rng.below(2)] + 1
    }

    /// Says that the sides differ, by one variable, now and then by both.
    fn differ(&self, s: &mut Search) {
        let literal = self.literal(s);
        s.w.numbers("differ", &[literal]);
        if s.rng.chance(25) {
            let literal = self.literal(s);
            s.w.numbers("differ", &[literal]);
        }
    }

    /// Joins the sides by one variable.
    fn hold(&self, s: &mut Search) {
        let variable = self.variables[s.rng.below(2)];
        s.w.numbers("equate", &[2 * variable]);
    }
}

impl Search<'_> {
    fn equation(&mut self, t: usize, u: usize) -> usize {
        self.w.term("eq", &[t, u]).expect("two of one sort, and room")
    }

    /// Goes back to a lower level, if there is one.
    fn pop_some(&mut self) {
        let level = self.w.session.level();
        if level > 0 {
            let target = self.rng.below(level);
            self.w.numbers("pop", &[target]);
        }
    }
}

/// The sides become equal before the line, after it or around it; then the line or the equality is taken back.
fn around_the_line(s: &mut Search) {
    let sort = s.any_datatype();
    let pair = Pair::new(s, sort, 2);
    let equation = pair.equation(s);
    let said_after = s.rng.below(pair.links.len() + 1);
    for (place, link) in pair.links.iter().enumerate() {
        if s.rng.chance(25) {
            s.push();
        }
        if place == said_after {
            equation.differ(s);
        }
        link.write(s);
    }
    if said_after == pair.links.len() {
        s.push();
        equation.differ(s);
    }
    s.only_check(1);
    s.pop_some();
    s.only_check(1);
    if s.rng.chance(50) {
        equation.hold(s);
    }
    equation.differ(s);
    s.only_check(1);
}

/// Several pairs, said in another order than that of their atoms, at several levels; some of them become equal.
fn several(s: &mut Search) {
    let sort = s.any_datatype();
    let pairs: Vec<Pair> = (0..3).map(|_| Pair::new(s, sort, 1)).collect();
    let mut equations: Vec<Equation> = pairs.iter().map(|pair| pair.equation(s)).collect();
    s.rng.shuffle(&mut equations);
    for equation in &equations {
        if s.rng.chance(40) {
            s.push();
        }
        equation.differ(s);
    }
    s.push();
    for pair in &pairs {
        if s.rng.chance(50) {
            pair.join(s);
        }
    }
    s.only_check(1);
    s.pop_some();
    s.only_check(1);
    equations[0].differ(s);
    for pair in &pairs {
        pair.join(s);
    }
    s.only_check(1);
}

/// One literal said at several levels, taken back by some pops and not by others, and said again; often by the other
/// variable in between.
fn said_twice(s: &mut Search) {
    let sort = s.any_datatype();
    let pair = Pair::new(s, sort, 1);
    let (equation, other) = (pair.equation(s), pair.equation(s));
    let literal = equation.literal(s);
    let joined_first = s.rng.chance(40);
    if joined_first {
        pair.join(s);
    }
    for _ in 0..s.rng.between(2, 4) {
        if s.rng.chance(75) {
            s.push();
        }
        s.w.numbers("differ", &[literal]);
        if s.rng.chance(40) {
            equation.differ(s);
        }
        if s.rng.chance(20) {
            other.differ(s);
        }
    }
    s.pop_some();
    if !joined_first {
        pair.join(s);
    }
    s.only_check(1);
    s.pop_some();
    s.only_check(1);
    s.w.numbers("differ", &[literal]);
    s.only_check(1);
}

/// Equal and unequal at the lowest level, above it a negative tester, a tester and a constructor that clash, one level
/// for each: a pop shows the next rule, and the number of a selector that injectivity was not come to.
fn after_clashes(s: &mut Search) {
    let sort = s.any_datatype();
    let pair = Pair::new(s, sort, 1);
    let equation = pair.equation(s);
    let constructor = s.any_constructor(sort, 1);
    let (t, application) = (pair.ends[s.rng.below(2)], crowd_of(s, sort, constructor));
    let (_, denied) = s.register_tester(constructor, t);
    let plain = s.plain_constructor(sort);
    let (_, claimed) = s.register_tester(plain, t);
    let base = s.construct(plain, &[]);
    s.mark(&[base]);
    equation.differ(s);
    pair.join(s);
    s.tie_by_way(t, application, 1);
    for clash in 0..3 {
        if s.rng.chance(80) {
            s.push();
        }
        match clash {
            0 if s.rng.chance(80) => {
                s.w.numbers("assert", &[2 * denied + 1]);
            }
            1 if s.rng.chance(70) => {
                s.w.numbers("assert", &[2 * claimed]);
            }
            2 if s.rng.chance(70) => s.tie(base, application),
            _ => {}
        }
    }
    while s.w.session.level() > 0 {
        s.only_check(1);
        let level = s.w.session.level();
        s.w.numbers("pop", &[level - 1]);
    }
    s.only_check(1);
    s.probe(constructor, &[application]);
}

/// Equal and unequal at a level above something that a later rule answers: a pop shows what the check did not come to,
/// and the numbers of selectors what it did not make.
fn before_lemmas(s: &mut Search) {
    let sort = s.any_datatype();
    let constructor = s.any_constructor(sort, 1);
    let pool = s.determined_terms(sort, 2);
    let applications = s.construct_two(constructor, &pool);
    s.mark(&applications);
    let t = s.constants(sort, 1)[0];
    let pair = Pair::new(s, sort, 0);
    let equation = pair.equation(s);
    tempt(s, constructor, &applications, t);
    let said_first = s.rng.chance(50);
    if said_first {
        equation.differ(s);
    }
    s.push();
    pair.join(s);
    s.tie(pair.ends[0], t);
    if !said_first {
        equation.differ(s);
    }
    s.only_check(1);
    s.probe(constructor, &applications);
    s.only_check(1);
    s.w.line("pop=0");
    s.settle(4);
}

/// Gives one of the later rules something to answer: injectivity, collapse, tester lemma, instantiation, the ring or, when
/// all terms were split on, the fence.
fn tempt(s: &mut Search, constructor: usize, applications: &[usize; 2], t: usize) {
    match s.rng.below(6) {
        0 => s.tie(applications[0], applications[1]),
        1 => {
            let selectors = s.select(constructor, t);
            let selector = s.among(&selectors);
            s.mark_any(selector);
            s.tie(t, applications[0]);
        }
        2 => {
            s.register_tester(constructor, t);
            s.tie(t, applications[0]);
        }
        3 => {
            let (_, variable) = s.register_tester(constructor, t);
            s.w.numbers("assert", &[2 * variable]);
        }
        4 => {
            let application = s.construct(constructor, &[t]);
            s.mark(&[application]);
            s.tie(t, application);
        }
        _ => s.exhaust(20),
    }
}

/// Another topic whole, over a pair that is equal or unequal above level 0 only, and once more when it was followed.
fn over_other_topics(s: &mut Search) {
    let sort = s.any_datatype();
    let pair = Pair::new(s, sort, 1);
    let equation = pair.equation(s);
    let said_first = s.rng.chance(50);
    if said_first {
        equation.differ(s);
    } else {
        pair.join(s);
    }
    s.push();
    if said_first {
        pair.join(s);
    } else {
        equation.differ(s);
    }
    let (topic, _) = topics::TOPICS[s.rng.below(topics::TOPICS.len())];
    topic(s);
    equation.differ(s);
    pair.join(s);
    s.only_check(1);
}

/// Terms of Bool or of another sort: nothing is marked that a check goes by, unless the script has more.
fn of_any_sort(s: &mut Search) {
    let terms = terms_of_another_sort(s);
    let sides = [terms[0], terms[terms.len() - 1]];
    let equation = Equation::of(s, sides);
    let said_first = s.rng.chance(50);
    if said_first {
        equation.differ(s);
    }
    s.only_check(1);
    s.push();
    for two in terms.windows(2) {
        Link::between(s, two[0], two[1]).write(s);
    }
    if !said_first {
        equation.differ(s);
    }
    s.only_check(1);
    s.w.line("pop=0");
    s.only_check(1);
    if s.rng.chance(50) {
        let sort = s.any_datatype();
        crowd(s, sort);
    }
    equation.hold(s);
    s.only_check(1);
}

/// At least two terms of a sort that is no datatype: constants, of Bool also equations of them and a predicate.
fn terms_of_another_sort(s: &mut Search) -> Vec<usize> {
    let others: Vec<usize> = (1..s.signature.datatype.len()).filter(|&sort| !s.signature.datatype[sort]).collect();
    if let Some(&sort) = s.rng.pick(&others) {
        let terms = s.constants(sort, 4);
        if terms.len() > 1 {
            return terms;
        }
    }
    let mut terms = s.constants(0, 3);
    if terms.len() > 1 {
        terms.push(s.equation(terms[0], terms[1]));
    } else {
        let sort = s.any_datatype();
        let sides = s.constants(sort, 2);
        terms.push(s.equation(sides[0], sides[1]));
    }
    s.rng.shuffle(&mut terms);
    terms
}

/// The negative literal by `assert`, which gives no entry, and by `differ` at a level of its own.
fn only_asserted(s: &mut Search) {
    let sort = s.any_datatype();
    let pair = Pair::new(s, sort, 1);
    let equation = pair.equation(s);
    let literal = equation.literal(s);
    s.w.numbers("assert", &[literal]);
    pair.join(s);
    s.only_check(1);
    s.push();
    if s.rng.chance(50) {
        equation.differ(s);
    } else {
        s.w.numbers("differ", &[literal]);
    }
    s.w.numbers("assert", &[literal]);
    s.only_check(1);
    s.w.line("pop=0");
    s.settle(2);
}
