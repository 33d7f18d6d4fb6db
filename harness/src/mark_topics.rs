//! What the rules make, mark and hand out: lemmas are left alone here, so that it shows in the checks that follow and
//! in the numbers of terms.

use crate::answer::Answer;
use crate::search::Search;

/// Classes with two applications of one constructor, their numbers mixed.
pub fn injectivity(s: &mut Search) {
    let sort = s.any_datatype();
    let pool = s.determined_terms(sort, 3);
    let sizes = &[2, 2][..s.rng.between(1, 2)];
    let constructor = s.any_constructor(sort, sizes.len());
    let classes = s.mixed_classes(&[constructor], &pool, sizes);
    join_and_probe(s, constructor, &classes);
}

/// A class of three applications, and one of two whose lowest comes between them.
pub fn injectivity_of_three(s: &mut Search) {
    let sort = s.any_datatype();
    let pool = s.determined_terms(sort, 4);
    let constructor = s.any_constructor(sort, 2);
    let mut applications = s.mixed_classes(&[constructor], &pool, &[5]).concat();
    applications.sort_unstable();
    let (first, second) = if s.rng.chance(50) { ([0, 2, 4], [1, 3]) } else { ([0, 3, 4], [1, 2]) };
    let classes = [first.map(|place| applications[place]).to_vec(), second.map(|place| applications[place]).to_vec()];
    join_and_probe(s, constructor, &classes);
}

fn join_and_probe(s: &mut Search, constructor: usize, classes: &[Vec<usize>]) {
    let applications = classes.concat();
    s.mark(&applications);
    if s.rng.chance(30) {
        s.push();
    }
    for class in classes {
        for (t, u) in s.tree(class) {
            s.tie(t, u);
        }
    }
    s.only_check(1);
    s.probe(constructor, &applications);
    if s.rng.chance(40) {
        s.settle(4);
    } else {
        s.exhaust(12);
    }
    s.w.line("pop=0");
    s.only_check(2);
}

/// Selectors on a term that is joined with applications of their constructor and later is not.
pub fn collapse(s: &mut Search) {
    let sort = s.any_datatype();
    let terms = s.constants(sort, 2);
    let constructor = s.any_constructor(sort, 1);
    for selector in s.select(constructor, terms[0]) {
        if s.rng.chance(70) {
            s.mark_any(selector);
        }
    }
    let pool = s.determined_terms(sort, 3);
    let applications = s.construct_two(constructor, &pool);
    s.mark(&applications);
    s.push();
    prepare_selector(s, constructor, terms[0], applications[0]);
    s.tie(terms[0], applications[0]);
    if s.rng.chance(40) {
        let t = s.among(&terms);
        s.tie(t, applications[1]);
    }
    if s.rng.chance(30) {
        s.settle(2);
    } else {
        let times = s.rng.between(1, 4);
        s.only_check(times);
    }
    s.w.line("pop=0");
    s.only_check(2);
    let t = s.among(&terms);
    s.tie(t, applications[1]);
    s.only_check(2);
    s.probe(constructor, &[terms[0], applications[0], applications[1]]);
}

/// A selector on an application that is equal to the field at the check and later is not.
pub fn collapse_of_equals(s: &mut Search) {
    let sort = s.any_datatype();
    let t = s.constants(sort, 1)[0];
    let constructor = s.any_constructor(sort, 1);
    for selector in s.select(constructor, t) {
        s.mark_any(selector);
    }
    let pool = s.determined_terms(sort, 2);
    let application = s.construct(constructor, &pool);
    s.mark(&[application]);
    s.push();
    s.tie(t, application);
    let fields = s.w.session.arguments_of(application);
    for (selector, field) in s.select(constructor, application).into_iter().zip(fields) {
        if s.rng.chance(75) {
            s.tie(selector, field);
        }
    }
    s.only_check(2);
    s.w.line("pop=0");
    s.only_check(3);
    s.tie(t, application);
    s.only_check(2);
}

/// Makes the selector on the application beforehand, as equal to the field or as registered atom, or makes the
/// selector on the term equal to the field.
fn prepare_selector(s: &mut Search, constructor: usize, t: usize, application: usize) {
    let place = s.rng.below(s.field_count(constructor));
    let field = s.w.session.arguments_of(application)[place];
    let symbol = s.signature.constructors[constructor].symbol + 2 + place;
    match s.rng.below(5) {
        0 | 1 => {
            let selector = s.make(&[symbol, application]);
            s.tie(selector, field);
        }
        2 => {
            let selector = s.make(&[symbol, t]);
            s.tie(selector, field);
        }
        3 => {
            let selector = s.make(&[symbol, application]);
            let atom = s.w.term("eq", &[selector, field]).expect("two of one sort, and room");
            s.register(atom);
        }
        _ => {}
    }
}

/// Selectors of all constructors on a term that gets one of these constructors.
pub fn foreign_selectors(s: &mut Search) {
    let sort = s.any_datatype();
    let t = s.constants(sort, 1)[0];
    let mut places = s.constructors_with(sort, 1);
    s.rng.shuffle(&mut places);
    for &place in &places {
        for selector in s.select(place, t) {
            s.mark_any(selector);
        }
    }
    let pool = s.determined_terms(sort, 2);
    let application = s.construct(places[0], &pool);
    s.mark(&[application]);
    s.tie_by_way(t, application, 1);
    s.settle(6);
    s.probe(places[0], &[application]);
    s.probe(places[1 % places.len()], &[application]);
}

/// A tester on a term that leaves the class of an application, which then meets another one.
pub fn tester_lemmas(s: &mut Search) {
    let sort = s.any_datatype();
    let terms = s.constants(sort, 2);
    let constructor = s.any_constructor(sort, 1);
    let pool = s.determined_terms(sort, 2);
    let applications = s.construct_two(constructor, &pool);
    s.mark(&applications);
    for &t in &terms {
        s.register_tester(constructor, t);
    }
    s.push();
    let mut order = applications;
    s.rng.shuffle(&mut order);
    for (t, application) in terms.into_iter().zip(order) {
        s.tie(t, application);
    }
    let times = s.rng.between(1, 2);
    s.only_check(times);
    let tester = s.signature.constructors[constructor].tester();
    s.make(&[tester, applications[0]]);
    if s.rng.chance(50) {
        s.w.line("pop=0");
    }
    s.tie(applications[0], applications[1]);
    let fields = s.field_count(constructor);
    s.settle(2 * fields + 2);
}

/// An asserted tester on a term without a constructor, whose lemma is not followed, and what becomes of the terms made.
pub fn instantiation(s: &mut Search) {
    let sort = s.any_datatype();
    let terms = s.constants(sort, 2);
    let constructor = s.any_constructor(sort, 1);
    for &t in &terms {
        let (atom, first) = s.register_tester(constructor, t);
        let variable = if s.rng.chance(50) { s.register(atom) } else { first };
        if s.rng.chance(70) {
            s.push();
            s.w.numbers("assert", &[2 * variable]);
        }
    }
    if s.rng.chance(40) {
        s.pop();
    }
    let answer = s.w.line("check=1");
    s.probe(constructor, &terms);
    match (&answer, s.rng.below(3)) {
        (Answer::Split { atoms, guards, .. }, 0) if !guards.is_empty() => {
            let sides = s.w.session.arguments_of(atoms[0]);
            s.tie(sides[0], sides[1]);
        }
        (_, 1) => {
            let pool = s.determined_terms(sort, 2);
            let application = s.construct(constructor, &pool);
            s.mark(&[application]);
            let t = s.among(&terms);
            s.tie(t, application);
        }
        _ => {}
    }
    s.exhaust(6);
    s.w.line("pop=0");
    s.only_check(2);
}

/// An atom that collapse hands out and that instantiation meets: a selector on an application whose field is a plain
/// constructor, with that constructor's tester on it.
pub fn handed_out(s: &mut Search) {
    let sort = s.any_datatype();
    let plain = s.plain_constructor(sort);
    let base = s.construct(plain, &[]);
    let holder = s.any_constructor(sort, 1);
    let application = s.construct(holder, &[base]);
    let own = s.signature.constructors[holder].fields.iter().position(|&field| field == sort).expect("its own sort");
    let t = s.make(&[s.signature.constructors[holder].symbol + 2 + own, application]);
    let (_, variable) = s.register_tester(plain, t);
    let late = s.rng.chance(50);
    if late {
        s.only_check(1);
    }
    s.push();
    s.w.numbers("assert", &[2 * variable]);
    if !late && s.rng.chance(50) {
        s.settle(1);
        s.w.line("pop=0");
    }
    s.only_check(3);
    if s.rng.chance(50) {
        s.settle(3);
    }
}

/// Watched terms of one class, with a constructor for a time.
pub fn exhaustiveness(s: &mut Search) {
    let sort = s.any_datatype();
    let mut terms = s.constants(sort, 3);
    s.rng.shuffle(&mut terms);
    s.mark(&terms);
    if s.rng.chance(60) {
        s.tie(terms[0], terms[1]);
    }
    s.push();
    let pool = s.determined_terms(sort, 2);
    s.mark(&pool);
    let (t, application) = (s.among(&terms), s.among(&pool));
    s.tie(t, application);
    let times = s.rng.between(1, 3);
    s.only_check(times);
    s.w.line("pop=0");
    s.exhaust(4);
}

/// A random walk over a few terms that the rules of a check have much to do with.
pub fn wandering(s: &mut Search) {
    let sort = s.any_datatype();
    let mut terms = s.constants(sort, 2);
    terms.extend(s.determined_terms(sort, 2));
    let constructor = s.any_constructor(sort, 1);
    for _ in 0..2 {
        let application = s.construct(constructor, &terms);
        terms.push(application);
    }
    s.mark(&terms);
    s.register_tester(constructor, terms[0]);
    for selector in s.select(constructor, terms[1]) {
        s.mark_any(selector);
    }
    for _ in 0..s.rng.between(10, 24) {
        wander(s, constructor, &terms);
    }
}

fn wander(s: &mut Search, constructor: usize, terms: &[usize]) {
    match s.rng.below(12) {
        0..=2 => {
            let (t, u) = (s.among(terms), s.among(terms));
            s.tie(t, u);
        }
        3..=4 => s.push(),
        5 => s.pop(),
        6 => s.probe(constructor, terms),
        7 => {
            s.settle(1);
        }
        8 => s.close_congruences(),
        9 => {
            let t = s.among(terms);
            let (_, variable) = s.register_tester(constructor, t);
            s.w.numbers("assert", &[2 * variable]);
        }
        _ => s.only_check(1),
    }
}
