//! Conflicts that hang on the pairs of a congruence: on each of them and on their order.

use crate::search::Search;

/// Two congruent applications of several places, joined with terms that clash.
pub fn pairs(s: &mut Search) {
    let sort = s.any_datatype();
    let depth = s.rng.below(3);
    let (left, right) = congruent(s, sort, depth);
    if s.rng.chance(20) {
        s.push();
    }
    clash(s, sort, left, right);
    s.only_check(1);
    if s.rng.chance(30) {
        s.w.line("pop=0");
        s.only_check(1);
    }
}

/// Makes two applications whose argument pairs are equal for different reasons, and joins them by congruence.
fn congruent(s: &mut Search, sort: usize, depth: usize) -> (usize, usize) {
    let places = s.rng.between(2, 3);
    let functions = s.signature.functions_from(&vec![sort; places], sort);
    let function = *s.rng.pick(&functions).expect("a rich signature");
    let mut pairs: Vec<(usize, usize)> = Vec::new();
    for _ in 0..places {
        let pair = equal_pair(s, sort, depth, &pairs);
        pairs.push(pair);
    }
    s.rng.shuffle(&mut pairs);
    let (left, right): (Vec<usize>, Vec<usize>) = pairs.into_iter().unzip();
    let left = s.make(&[&[function], left.as_slice()].concat());
    let right = s.make(&[&[function], right.as_slice()].concat());
    s.w.numbers("cong", &if s.rng.chance(50) { [left, right] } else { [right, left] });
    (left, right)
}

/// Two equal terms: tied, congruent themselves, the same, a pair that was there before, perhaps with its sides
/// exchanged, or one that shares a term with it.
fn equal_pair(s: &mut Search, sort: usize, depth: usize, before: &[(usize, usize)]) -> (usize, usize) {
    match s.rng.below(10) {
        0 => {
            let t = s.fresh(sort);
            (t, t)
        }
        1 if !before.is_empty() => {
            let (t, u) = before[s.rng.below(before.len())];
            if s.rng.chance(50) {
                (t, u)
            } else {
                (u, t)
            }
        }
        2 if !before.is_empty() => {
            let (t, u) = (before[0].0, s.fresh(sort));
            s.tie(before[0].1, u);
            (t, u)
        }
        3..=5 if depth > 0 => congruent(s, sort, depth - 1),
        _ => {
            let (t, u) = (s.fresh(sort), s.fresh(sort));
            s.tie_by_way(t, u, 1);
            (t, u)
        }
    }
}

/// Gives two equal terms different constructors, or one of them a constructor and the other another one's tester.
fn clash(s: &mut Search, sort: usize, left: usize, right: usize) {
    let plain = s.plain_constructor(sort);
    let other = s.any_constructor(sort, 1);
    let constants = s.constants(sort, 2);
    let (a, b) = (s.construct(plain, &[]), s.construct(other, &constants));
    if s.rng.chance(35) {
        s.mark(&[a]);
        let (_, variable) = s.register_tester(other, left);
        let before = s.rng.chance(50);
        if before {
            s.w.numbers("assert", &[2 * variable]);
        }
        s.tie_by_way(right, a, 1);
        if !before {
            s.w.numbers("assert", &[2 * variable]);
        }
        return;
    }
    s.mark(&[a, b]);
    let mut links = [(left, a), (right, b)];
    s.rng.shuffle(&mut links);
    for (t, u) in links {
        s.tie_by_way(t, u, 1);
    }
}
