//! Rings in which it shows where the walk starts, which field it tries first, which application stands for a class and
//! how an edge is explained.

use crate::search::Search;

/// Classes of one datatype, most of them over two others: often several rings.
pub fn rings(s: &mut Search) {
    let count = s.rng.between(2, 4);
    rings_among(s, count, 0);
}

/// The same where no field leads to the lowest members: the walk starts outside of every ring.
pub fn rings_reached(s: &mut Search) {
    let outside = s.rng.between(1, 2);
    rings_among(s, outside + 2, outside);
}

/// Each class has a constant, mostly another name for it, and one application or two. The first classes, as many as
/// stay outside, lead to the next one.
fn rings_among(s: &mut Search, count: usize, outside: usize) {
    let sort = s.any_datatype();
    let mut classes: Vec<Vec<usize>> = s.constants(sort, count).into_iter().map(|constant| vec![constant]).collect();
    for class in classes.iter_mut() {
        if s.rng.chance(60) {
            let function = s.endofunction(sort);
            class.push(s.make(&[function, class[0]]));
        }
    }
    let names = classes.clone();
    let constructors: Vec<usize> = classes.iter().map(|_| two_fields_mostly(s, sort)).collect();
    let mut order: Vec<usize> = (0..count).collect();
    if s.rng.chance(30) {
        order.push(s.rng.below(count));
    }
    s.rng.shuffle(&mut order);
    for place in order {
        let pool = targets(s, &names, place, outside);
        let application = s.construct(constructors[place], &pool);
        classes[place].push(application);
    }
    join_classes(s, &classes);
    s.settle(14);
}

/// The terms that the fields of a class are taken from.
fn targets(s: &mut Search, names: &[Vec<usize>], place: usize, outside: usize) -> Vec<usize> {
    if place < outside {
        return names[place + 1].clone();
    }
    let itself = s.rng.chance(35);
    let others = (outside..names.len()).filter(|&other| itself || other != place);
    let mut pool: Vec<usize> = others.flat_map(|other| names[other].clone()).collect();
    if s.rng.chance(15) {
        pool.push(s.determined(s.w.session.sort_of(names[0][0])));
    }
    pool
}

fn two_fields_mostly(s: &mut Search, sort: usize) -> usize {
    let recursive = if s.rng.chance(80) { 2 } else { 1 };
    s.any_constructor(sort, recursive)
}

/// Marks and joins the terms of each class, the links of all classes in random order.
fn join_classes(s: &mut Search, classes: &[Vec<usize>]) {
    let mut links = Vec::new();
    for class in classes {
        let mut class = class.clone();
        s.rng.shuffle(&mut class);
        s.mark(&class);
        links.extend(s.tree(&class));
    }
    s.rng.shuffle(&mut links);
    for (t, u) in links {
        if s.rng.chance(10) {
            s.push();
        }
        s.tie_by_way(t, u, 1);
    }
}

/// A ring whose classes have two applications of one constructor; only the lowest of each makes edges.
pub fn rings_of_crowds(s: &mut Search) {
    let sort = s.any_datatype();
    let count = if s.rng.chance(25) { 1 } else { s.rng.between(2, 3) };
    let members = s.constants(sort, count);
    let constructor = s.any_constructor(sort, 1);
    let leaves = s.determined_terms(sort, count);
    let mut classes: Vec<Vec<usize>> = members.iter().map(|&member| vec![member]).collect();
    let mut fields: Vec<(usize, usize)> =
        (0..members.len()).map(|place| (place, (place + 1) % members.len())).collect();
    s.rng.shuffle(&mut fields);
    for (place, next) in fields {
        let mut two = [members[next], leaves[place]];
        if s.rng.chance(20) {
            two.swap(0, 1);
        }
        let applications = two.map(|field| s.construct(constructor, &[field]));
        classes[place].extend(applications);
    }
    join_classes(s, &classes);
    s.settle(24);
}

/// A ring beside a class that has no constructor and was split on: the answer is unknown.
pub fn rings_behind_the_fence(s: &mut Search) {
    let sort = s.any_datatype();
    let members = s.constants(sort, 3);
    let constructor = s.any_constructor(sort, 1);
    let application = s.construct(constructor, &members[..1]);
    s.mark(&[members[1], application]);
    s.tie_by_way(members[0], application, 1);
    s.only_check(4);
    let plain = s.plain_constructor(sort);
    let base = s.construct(plain, &[]);
    s.mark(&[base]);
    s.tie(members[1], base);
    s.only_check(2);
}
