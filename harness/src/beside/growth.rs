//! How the time of one full check grows with the terms of the table.

use crate::bench;
use crate::clock;
use crate::library::{self, Lent};
use crate::shapes::Shape;
use oracle::run;
use std::fmt::Write as _;

const SIZES: [usize; 5] = [64, 128, 256, 512, 1_000];

/// A shape for so many terms.
type Make = fn(usize) -> Shape;

/// The shapes by name, with the checks by which the Rust's longer script differs from its shorter one.
const SHAPES: [(&str, usize, Make); 4] =
    [("list", 8, list), ("ring", 8, ring), ("class", 8, class), ("watched", 1_000, watched)];

/// The same for the library, whose checks take less time.
const LIBRARY_CHECKS: usize = 1_000;

/// The time of one check at a number of terms, in seconds.
pub struct Point {
    pub terms: usize,
    pub rust: f64,
    pub library: f64,
}

pub struct Growth {
    pub name: &'static str,
    pub points: Vec<Point>,
}

impl Growth {
    pub fn rust_exponent(&self) -> f64 {
        exponent(self.points.iter().map(|point| (point.terms, point.rust)))
    }

    pub fn library_exponent(&self) -> f64 {
        exponent(self.points.iter().map(|point| (point.terms, point.library)))
    }
}

/// The slope of the straight line nearest to the points on logarithmic axes, by least squares.
fn exponent(points: impl Iterator<Item = (usize, f64)>) -> f64 {
    let logs: Vec<(f64, f64)> = points.map(|(terms, time)| ((terms as f64).ln(), time.ln())).collect();
    let count = logs.len() as f64;
    let (x, y) = (logs.iter().map(|p| p.0).sum::<f64>() / count, logs.iter().map(|p| p.1).sum::<f64>() / count);
    let both: f64 = logs.iter().map(|p| (p.0 - x) * (p.1 - y)).sum();
    both / logs.iter().map(|p| (p.0 - x).powi(2)).sum::<f64>()
}

/// A list of watched terms and their successors that ends in zero: sat. A third of the terms each are members,
/// successors and atoms.
fn list(terms: usize) -> Shape {
    let mut shape = Shape::numbers();
    shape.ring((terms - 2) / 3, false, 1);
    shape
}

/// The same, closed to a ring, all joins under one leaf: a conflict.
fn ring(terms: usize) -> Shape {
    let mut shape = Shape::numbers();
    shape.ring(terms / 3, true, 1);
    shape
}

/// Successors in one class, each with a selector on it that is equal to its field: sat.
fn class(terms: usize) -> Shape {
    let mut shape = Shape::numbers();
    shape.collapsed_crowd((terms - 2) / 4);
    shape
}

/// Watched terms without a constructor that were all split on: unknown.
fn watched(terms: usize) -> Shape {
    let count = (terms - 1) / 3;
    let mut shape = Shape::numbers();
    let members = shape.tower(6, count);
    shape.watch(members[count - 1]);
    shape.checks(count);
    shape
}

pub fn measure(least: f64) -> Vec<Growth> {
    SHAPES
        .into_iter()
        .map(|(name, more, make)| {
            eprintln!("growth: {name}");
            Growth { name, points: SIZES.into_iter().map(|terms| point(make, terms, more, least)).collect() }
        })
        .collect()
}

fn point(make: Make, terms: usize, more: usize, least: f64) -> Point {
    let rust = one_check(make, terms, more, least, |script| {
        std::hint::black_box(run::by_rust(script, run::MOST_OUTPUT));
    });
    let mut lent = Lent::new(run::MOST_OUTPUT);
    let library = one_check(make, terms, LIBRARY_CHECKS, least, |script| {
        std::hint::black_box(library::run(script, &mut lent));
    });
    Point { terms: make(terms).w.session.term_count(), rust, library }
}

/// The time of one check: the difference between two scripts that differ in the checks at their end, for each check
/// more. The first check is in both.
fn one_check(make: Make, terms: usize, more: usize, least: f64, mut answer: impl FnMut(&[u8])) -> f64 {
    let mut short = make(terms).script();
    short.extend_from_slice(b"check=1\n");
    bench::hold_to_the_rust("growth", &short);
    let mut long = short.clone();
    long.extend_from_slice(&b"check=1\n".repeat(more));
    assert!(long.len() <= run::MOST_SCRIPT, "too many checks for one script");
    let answer = std::cell::RefCell::new(&mut answer);
    let (short, long) = clock::by_turns(least, || answer.borrow_mut()(&short), || answer.borrow_mut()(&long));
    (long - short) / more as f64
}

pub fn table(grown: &[Growth]) -> String {
    let mut text = String::from(
        "| one full check | terms | Rust, µs | library, µs | ratio |\n\
         |---|---:|---:|---:|---:|\n",
    );
    for growth in grown {
        for Point { terms, rust, library } in &growth.points {
            let (ratio, rust, library) = (bench::times(rust / library), rust * 1e6, library * 1e6);
            let _ = writeln!(text, "| {} | {terms} | {rust:.1} | {library:.2} | {ratio} |", growth.name);
        }
        let (rust, library) = (growth.rust_exponent(), growth.library_exponent());
        let _ = writeln!(text, "| {}, exponent | | {rust:.2} | {library:.2} | |", growth.name);
    }
    text
}
