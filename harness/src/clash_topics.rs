//! Conflicts of constructors and testers: which is found first, from which side it is explained, which literal is
//! cited.

use crate::search::Search;

/// Classes with applications of several constructors, their numbers mixed.
pub fn constructor_clashes(s: &mut Search) {
    let sort = s.any_datatype();
    let constants = s.constants(sort, 4);
    let sizes: Vec<usize> = (0..s.rng.between(1, 3)).map(|_| s.rng.between(2, 3)).collect();
    let recursive = usize::from(s.rng.chance(60));
    let constructors = s.constructors_with(sort, recursive);
    let classes = s.mixed_classes(&constructors, &constants, &sizes);
    s.mark(&classes.concat());
    let mut links: Vec<(usize, usize)> = classes.iter().flat_map(|class| s.tree(class)).collect();
    s.rng.shuffle(&mut links);
    for (t, u) in links {
        if s.rng.chance(10) {
            s.push();
        }
        s.tie_by_way(t, u, 1);
    }
    s.only_check(1);
    s.pop();
    s.only_check(1);
}

/// Testers asserted in another order than that of their atoms, by one variable of two, and terms that then get
/// constructors.
pub fn tester_clashes(s: &mut Search) {
    let sort = s.any_datatype();
    let terms = s.constants(sort, 3);
    let testers = some_testers(s, sort, &terms);
    for &variables in &testers {
        if s.rng.chance(30) {
            s.push();
        }
        assert_some(s, variables);
    }
    let application = crowd(s, sort);
    for &t in &terms {
        s.tie_by_way(t, application, 1);
    }
    s.only_check(1);
    let level = s.w.session.level();
    if level > 0 {
        let target = s.rng.below(level);
        s.w.numbers("pop", &[target]);
        s.only_check(1);
        assert_some(s, testers[0]);
        s.tie_by_way(terms[0], application, 1);
        s.only_check(1);
    }
}

/// Tester atoms on the terms, two variables for each, in random order.
fn some_testers(s: &mut Search, sort: usize, terms: &[usize]) -> Vec<[usize; 2]> {
    let mut testers = Vec::new();
    for _ in 0..s.rng.between(2, 4) {
        let (place, t) = (s.any_constructor(sort, 0), s.among(terms));
        let (atom, first) = s.register_tester(place, t);
        testers.push([first, s.register(atom)]);
    }
    s.rng.shuffle(&mut testers);
    testers
}

fn assert_some(s: &mut Search, variables: [usize; 2]) {
    let variable = variables[s.rng.below(2)];
    s.w.numbers("assert", &[2 * variable]);
    if s.rng.chance(30) {
        s.w.numbers("assert", &[2 * variables[0]]);
    }
}

/// A class of two marked applications of one constructor; returns one of them.
pub fn crowd(s: &mut Search, sort: usize) -> usize {
    let constructor = s.any_constructor(sort, 1);
    crowd_of(s, sort, constructor)
}

pub fn crowd_of(s: &mut Search, sort: usize, constructor: usize) -> usize {
    let constants = s.constants(sort, 4);
    let applications = s.construct_two(constructor, &constants);
    s.mark(&applications);
    s.tie_by_way(applications[0], applications[1], 1);
    s.among(&applications)
}

/// Testers asserted on a term whose class has several applications already, and a check after the conflict.
pub fn assert_conflicts(s: &mut Search) {
    let sort = s.any_datatype();
    let terms = s.constants(sort, 2);
    s.push();
    let application = crowd(s, sort);
    if s.rng.chance(40) {
        let plain = s.plain_constructor(sort);
        let base = s.construct(plain, &[]);
        s.mark(&[base]);
        s.tie(application, base);
    }
    for &t in &terms {
        s.tie_by_way(t, application, 2);
        let place = s.any_constructor(sort, 0);
        let (_, variable) = s.register_tester(place, t);
        s.w.numbers("assert", &[2 * variable]);
        if s.rng.chance(50) {
            s.only_check(1);
        }
    }
    s.w.line("pop=0");
    s.only_check(2);
}

/// A tester asserted, popped over one level or more, checked, and asserted again.
pub fn records_and_levels(s: &mut Search) {
    let sort = s.any_datatype();
    let terms = s.constants(sort, 2);
    let mut variables = Vec::new();
    for &t in &terms {
        let place = s.any_constructor(sort, 0);
        variables.push(s.register_tester(place, t).1);
    }
    for _ in 0..s.rng.between(1, 3) {
        s.push();
        let variable = s.among(&variables);
        s.w.numbers("assert", &[2 * variable]);
    }
    let level = s.w.session.level();
    let target = s.rng.below(level);
    s.w.numbers("pop", &[target]);
    if s.rng.chance(50) {
        s.only_check(2);
    }
    if s.rng.chance(50) {
        let variable = s.among(&variables);
        s.w.numbers("assert", &[2 * variable]);
    }
    let application = crowd(s, sort);
    let t = s.among(&terms);
    s.tie_by_way(t, application, 1);
    s.only_check(2);
}
