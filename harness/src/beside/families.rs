//! The scripts of the benchmark, by family. Each is within the limits of the scope document 01 unless its family is
//! about what is refused. None has a negative tester or unequal terms: the published Rust is not given those, and both
//! sides have to give the same answers.

use crate::shapes::Shape;
use oracle::generate::{self, Kind};
use oracle::rng::Rng;
use oracle::run;

pub struct Script {
    pub name: String,
    pub bytes: Vec<u8>,
}

pub struct Family {
    /// The kind of sheet, of those that the goals name, that the family belongs to, if any.
    pub kind: Option<&'static str>,
    pub name: &'static str,
    /// What the scripts have in common, in a few words.
    pub what: &'static str,
    pub scripts: Vec<Script>,
}

pub fn all() -> Vec<Family> {
    vec![
        family("examples", "the examples of 01 without a negative tester", examples()),
        of_kind("searches", "short search", "generated searches of at most 60 lines", searches(1, 60)),
        of_kind("searches", "search", "generated searches of 200 lines and more", searches(200, usize::MAX)),
        of_kind("searches", "long search", "searches that go on until a limit is near", seeds(Kind::Long)),
        of_kind("searches", "stuck search", "the same, in a conflict that no pop takes back", seeds(Kind::Stuck)),
        of_kind("terms", "terms", "1,000 terms, 64 KiB of lookups", terms()),
        family("collection", "atoms over deep and shared terms", collection()),
        of_kind("explanations", "chains", "conflicts of hundreds of leaves along chains of joins", chains()),
        of_kind("explanations", "congruences", "nested congruences", congruences()),
        of_kind("rings", "rings", "rings found, and walks that find none", rings()),
        of_kind("big classes", "classes", "hundreds of constructor applications in few classes", classes()),
        of_kind("watched terms", "watched", "watched terms without a constructor", watched()),
        family("testers", "testers asserted, instantiation, lemmas followed", testers()),
        family("asserts", "testers asserted with few constructor applications", asserts()),
        of_kind("push and pop", "levels", "push and pop", levels()),
        family("small checks", "checks of a few terms", small_checks()),
        family("declarations", "sorts and symbols up to their limits", declarations()),
        of_kind("refused and damaged", "refusals", "lines refused by each question", refusals()),
        of_kind("refused and damaged", "damaged", "damaged bytes", damaged()),
    ]
}

fn family(name: &'static str, what: &'static str, scripts: Vec<Script>) -> Family {
    Family { kind: None, name, what, scripts }
}

fn of_kind(kind: &'static str, name: &'static str, what: &'static str, scripts: Vec<Script>) -> Family {
    Family { kind: Some(kind), ..family(name, what, scripts) }
}

fn script(name: impl Into<String>, bytes: Vec<u8>) -> Script {
    Script { name: name.into(), bytes }
}

/// All but number 05, which asserts a negative tester.
fn examples() -> Vec<Script> {
    macro_rules! examples {
        ($($number:literal),*) => {
            vec![$(script($number, include_bytes!(concat!("../../examples/", $number, ".in")).to_vec())),*]
        };
    }
    examples!("01", "02", "03", "04", "06", "07", "08", "09", "10", "11")
}

fn lines_of(bytes: &[u8]) -> usize {
    oracle::script::lines(bytes).count()
}

/// The first generated scripts of a kind that fit and that the published Rust is given.
fn generated(kind: Kind, count: usize, fits: impl Fn(&[u8]) -> bool) -> Vec<Script> {
    let named = |seed| script(format!("seed {seed}"), generate::script(kind, seed));
    let chosen = |made: &Script| fits(&made.bytes) && !run::beyond_rust(&made.bytes).any();
    (1..).map(named).filter(chosen).take(count).collect()
}

/// Generated searches with so many lines.
fn searches(least: usize, most: usize) -> Vec<Script> {
    generated(Kind::Search, 20, |bytes| (least..=most).contains(&lines_of(bytes)))
}

fn seeds(kind: Kind) -> Vec<Script> {
    generated(kind, 10, |_| true)
}

fn terms() -> Vec<Script> {
    vec![
        script("unary", unary_lookups(6)),
        script("selectors", unary_lookups(4)),
        script("two arguments", pair_lookups()),
        script("equations", equation_lookups()),
        script("sixteen arguments", wide_lookups()),
    ]
}

fn unary_lookups(symbol: usize) -> Vec<u8> {
    let mut shape = Shape::numbers();
    shape.tower(symbol, 1_000);
    shape.fill(|rng| format!("term={symbol},{}", rng.below(999)));
    shape.script()
}

fn pair_lookups() -> Vec<u8> {
    let mut shape = Shape::numbers();
    shape.tower(6, 31);
    for t in 0..31 {
        for u in 0..31 {
            shape.w.numbers("term", &[8, t, u]);
        }
    }
    shape.fill(|rng| format!("term=8,{},{}", rng.below(31), rng.below(31)));
    shape.script()
}

fn equation_lookups() -> Vec<u8> {
    let mut shape = Shape::numbers();
    shape.tower(6, 45);
    for t in 0..44 {
        for u in t + 1..45 {
            shape.w.numbers("eq", &[t, u]);
        }
    }
    shape.fill(|rng| {
        let t = rng.below(44);
        format!("eq={t},{}", rng.between(t + 1, 44))
    });
    shape.script()
}

fn wide_lookups() -> Vec<u8> {
    let mut shape = Shape::wide();
    for code in 0..250 {
        shape.wide_application(code);
    }
    shape.fill(|rng| {
        let code = rng.below(250);
        format!("term=22{}", (0..16).map(|bit| format!(",{}", (code >> bit) & 1)).collect::<String>())
    });
    shape.script()
}

fn collection() -> Vec<Script> {
    let mut scripts = Vec::new();
    for depth in [200, 500] {
        let mut shape = Shape::numbers();
        let tower = shape.tower(2, depth);
        for t in tower.iter().rev() {
            shape.watch(*t);
        }
        scripts.push(script(format!("each of {depth} nested"), shape.script()));
    }
    let mut shape = Shape::numbers();
    let mut t = shape.w.term("term", &[5]).unwrap_or(0);
    for _ in 0..300 {
        t = shape.w.term("term", &[8, t, t]).unwrap_or(t);
        shape.watch(t);
    }
    scripts.push(script("shared", shape.script()));
    let mut shape = Shape::numbers();
    let tower = shape.tower(6, 1_000);
    let atom = shape.w.term("term", &[7, tower[999]]).unwrap_or(0);
    for variable in 0..1_000 {
        shape.w.numbers("var", &[variable, atom]);
    }
    scripts.push(script("one atom, 1,000 variables", shape.script()));
    scripts
}

fn chains() -> Vec<Script> {
    let mut scripts = Vec::new();
    for (length, shuffled, tags) in [
        (300, false, 100_000),
        (900, false, 100_000),
        (300, true, 100_000),
        (900, true, 100_000),
        (900, true, 8),
        (900, false, 1),
    ] {
        let mut shape = Shape::numbers();
        let members = shape.tower(6, length);
        shape.join_in_a_row(&members, shuffled, tags);
        shape.clash_between(members[0], members[length - 1]);
        shape.checks(20);
        let order = if shuffled { "shuffled" } else { "in order" };
        scripts.push(script(format!("{length} joins {order}, {tags} tags"), shape.script()));
    }
    for length in [150, 320] {
        let mut shape = Shape::numbers();
        let members = shape.tower(6, length);
        shape.equate_in_a_row(&members);
        shape.clash_between(members[0], members[length - 1]);
        shape.checks(20);
        scripts.push(script(format!("{length} literals"), shape.script()));
    }
    let mut shape = Shape::numbers();
    let members = shape.tower(6, 900);
    shape.join_at_random(&members, 100_000);
    shape.clash_between(members[0], members[899]);
    shape.checks(100);
    scripts.push(script("random tree of 900", shape.script()));
    let mut shape = Shape::numbers();
    let members = shape.tower(6, 600);
    shape.join_in_a_row(&members, false, 100_000);
    shape.assert_against(members[0], members[599], 12);
    scripts.push(script("600 joins, asserted", shape.script()));
    scripts
}

fn congruences() -> Vec<Script> {
    let mut scripts = Vec::new();
    for height in [30, 100, 250, 480] {
        let mut shape = Shape::numbers();
        shape.towers_joined(height, false);
        shape.checks(20);
        scripts.push(script(format!("towers of {height}"), shape.script()));
    }
    for height in [100, 250, 480] {
        let mut shape = Shape::numbers();
        shape.towers_joined(height, true);
        shape.checks(20);
        scripts.push(script(format!("shared towers of {height}"), shape.script()));
    }
    for height in [60, 240] {
        let mut shape = Shape::numbers();
        shape.towers_over_leaves(height);
        shape.checks(20);
        scripts.push(script(format!("towers of {height} with a leaf each"), shape.script()));
    }
    for length in [60, 400] {
        let mut shape = Shape::numbers();
        shape.ladder(length);
        shape.checks(20);
        scripts.push(script(format!("ladder of {length}"), shape.script()));
    }
    let mut shape = Shape::wide();
    shape.wide_row(120);
    shape.checks(20);
    scripts.push(script("row of sixteen arguments", shape.script()));
    scripts
}

fn rings() -> Vec<Script> {
    let mut scripts = Vec::new();
    for (length, tags) in [(20, 1_000), (100, 1_000), (330, 1_000), (330, 1)] {
        let mut shape = Shape::numbers();
        shape.ring(length, true, tags);
        shape.checks(20);
        scripts.push(script(format!("ring of {length}, {tags} tags"), shape.script()));
    }
    for length in [100, 330] {
        let mut shape = Shape::numbers();
        shape.ring(length, false, 1_000);
        shape.checks(20);
        scripts.push(script(format!("open chain of {length}"), shape.script()));
    }
    for depth in [5, 7] {
        let mut shape = Shape::trees();
        shape.tree(depth, depth == 5);
        shape.checks(20);
        scripts.push(script(format!("binary tree of depth {depth}"), shape.script()));
    }
    scripts
}

fn classes() -> Vec<Script> {
    let mut scripts = Vec::new();
    for (count, parts) in [(60, 1), (120, 1), (250, 1), (250, 4), (250, 40)] {
        let mut shape = Shape::numbers();
        shape.crowd(count, parts);
        shape.checks(30);
        scripts.push(script(format!("{count} in {parts}"), shape.script()));
    }
    for count in [40, 150] {
        let mut shape = Shape::numbers();
        shape.crowd(count, 1);
        shape.follow_checks(count);
        scripts.push(script(format!("{count} in 1, lemmas followed"), shape.script()));
    }
    let mut shape = Shape::pairs();
    shape.crowd_of_pairs(150);
    shape.checks(30);
    scripts.push(script("150 of two fields in 1", shape.script()));
    scripts
}

fn watched() -> Vec<Script> {
    let mut scripts = Vec::new();
    for count in [100, 300] {
        let mut shape = Shape::numbers();
        let members = shape.tower(6, count);
        shape.watch(members[count - 1]);
        shape.checks(count + 20);
        scripts.push(script(format!("{count}, split on each"), shape.script()));
    }
    for (count, applications) in [(300, 1), (250, 20)] {
        let mut shape = Shape::numbers();
        let members = shape.tower(6, count);
        shape.watch(members[count - 1]);
        for t in &members[..applications] {
            let successor = shape.w.term("term", &[2, *t]).unwrap_or(0);
            shape.watch(successor);
        }
        shape.checks(count + 20);
        scripts.push(script(format!("{count} and {applications} applications"), shape.script()));
    }
    let mut shape = Shape::numbers();
    let members = shape.tower(6, 300);
    shape.watch(members[299]);
    shape.join_in_a_row(&members, true, 1_000);
    shape.checks(320);
    scripts.push(script("300 in one class", shape.script()));
    let mut shape = Shape::constants(480);
    for t in (0..480).step_by(2) {
        shape.register_equation(t, t + 1);
    }
    shape.checks(130);
    scripts.push(script("480 constants", shape.script()));
    scripts
}

fn testers() -> Vec<Script> {
    let mut scripts = Vec::new();
    for count in [10, 60, 120] {
        let mut shape = Shape::constants(count);
        shape.assert_testers(count, 3);
        shape.follow_checks(3 * count);
        scripts.push(script(format!("{count} successors"), shape.script()));
    }
    for count in [60, 200] {
        let mut shape = Shape::constants(count);
        shape.assert_testers(count, 1);
        shape.follow_checks(2 * count);
        scripts.push(script(format!("{count} zeros"), shape.script()));
    }
    let mut shape = Shape::constants(20);
    shape.assert_testers(20, 3);
    shape.follow_checks(250);
    scripts.push(script("20, deep", shape.script()));
    scripts
}

fn asserts() -> Vec<Script> {
    let mut scripts = Vec::new();
    for (count, applications) in [(10, 0), (200, 0), (480, 0), (300, 3), (200, 150)] {
        let mut shape = Shape::constants(count);
        for t in 0..applications {
            let successor = shape.w.term("term", &[2, t]).unwrap_or(0);
            shape.watch(successor);
        }
        let variables = shape.register_testers(count);
        shape.fill(|rng| format!("assert={}", 2 * variables[rng.below(count)]));
        scripts.push(script(format!("{count} terms, {applications} applications"), shape.script()));
    }
    scripts
}

fn levels() -> Vec<Script> {
    let mut scripts = Vec::new();
    let mut shape = Shape::numbers();
    shape.fill(|rng| if rng.chance(55) { "push=1".to_string() } else { format!("pop={}", rng.below(40)) });
    scripts.push(script("nothing joined", shape.script()));
    for (count, joins) in [(60, 1), (400, 1), (900, 8), (900, 300)] {
        let mut shape = Shape::numbers();
        let members = shape.tower(6, count);
        shape.up_and_down(&members, joins, 0);
        scripts.push(script(format!("{count} terms, {joins} joins a level"), shape.script()));
    }
    for (count, every) in [(60, 40), (200, 200)] {
        let mut shape = Shape::numbers();
        let (members, successors) = shape.successors(count);
        let both: Vec<usize> = members.into_iter().chain(successors).collect();
        shape.up_and_down(&both, 2, every);
        scripts.push(script(format!("{count} terms and successors, a check in {every} lines"), shape.script()));
    }
    let mut shape = Shape::numbers();
    let members = shape.tower(6, 900);
    shape.turned_row(&members);
    scripts.push(script("a row turned again and again", shape.script()));
    scripts
}

fn small_checks() -> Vec<Script> {
    let mut scripts = Vec::new();
    let mut shape = Shape::numbers();
    shape.fill(|_| "check=1".to_string());
    scripts.push(script("no terms", shape.script()));
    let mut shape = Shape::numbers();
    shape.fill(|_| "check=0".to_string());
    scripts.push(script("not full", shape.script()));
    for length in [2, 8, 16] {
        let mut shape = Shape::numbers();
        shape.ring(length, false, 1_000);
        shape.fill(|_| "check=1".to_string());
        scripts.push(script(format!("open chain of {length}"), shape.script()));
        let mut shape = Shape::numbers();
        shape.ring(length, true, 10);
        shape.checks(1_000);
        scripts.push(script(format!("ring of {length}"), shape.script()));
    }
    scripts
}

fn declarations() -> Vec<Script> {
    let mut scripts = Vec::new();
    for fields in [0, 1, 6, 16] {
        let mut shape = Shape::empty();
        for line in ["sort=d", "ctor=1", "sort=u"] {
            shape.w.line(line);
        }
        for _ in 0..61 {
            shape.w.line("sort=u");
        }
        let mut numbers = vec![1];
        numbers.extend((0..fields).map(|field| 1 + field % 2));
        for _ in 0..510 / (2 + fields) {
            shape.w.numbers("ctor", &numbers);
        }
        shape.w.line("close=1");
        scripts.push(script(format!("constructors of {fields} fields"), shape.script()));
    }
    let mut shape = Shape::empty();
    for line in ["sort=d", "ctor=1"] {
        shape.w.line(line);
    }
    for _ in 0..510 {
        shape.w.numbers("fun", &[1; 17]);
    }
    shape.w.line("close=1");
    scripts.push(script("functions of 16 arguments", shape.script()));
    scripts
}

fn refusals() -> Vec<Script> {
    let mut scripts = Vec::new();
    for (name, lines) in [
        ("3", &["term=01", "chek=1", "pop=", "iface=0,0,65536,1", "check=2", "var=1,2,3"][..]),
        ("4", &["sort=d", "ctor=1", "fun=1,1", "close=1"]),
        ("5", &["term=99", "eq=0,4000", "var=1024,1", "assert=2046", "term=6,1000000", "cong=5,900"]),
        ("6", &["eq=3,3", "term=6", "term=6,1,2", "iface=1,60,0,0", "var=5,1", "term=7,60"]),
        ("7 to 9", &["var=0,60", "equate=1", "equate=0", "cong=1,2", "cong=2,60"]),
    ] {
        let mut shape = Shape::numbers();
        let members = shape.tower(6, 60);
        let atom = shape.w.term("term", &[7, members[59]]).unwrap_or(0);
        shape.w.numbers("var", &[0, atom]);
        shape.fill(|rng| lines[rng.below(lines.len())].to_string());
        scripts.push(script(format!("question {name}"), shape.script()));
    }
    let mut shape = Shape::numbers();
    shape.tower(6, 1_024);
    shape.fill(|rng| format!("term={},{}", [2, 4, 6][rng.below(3)], rng.below(1_024)));
    scripts.push(script("question 11, terms", shape.script()));
    let mut shape = Shape::numbers();
    shape.fill(|_| "push=1".to_string());
    scripts.push(script("question 11, levels", shape.script()));
    scripts.extend(generated(Kind::Refused, 10, |bytes| lines_of(bytes) >= 200 && !refuses_a_check(bytes)));
    scripts
}

/// Does a run refuse a check? The session around the published solver then builds itself anew, line by line.
fn refuses_a_check(bytes: &[u8]) -> bool {
    let mut refused = false;
    run::watched(bytes, |_, line, answer| {
        refused |= line == b"check=1" && *answer == oracle::answer::Answer::Refused(11);
    });
    refused
}

fn damaged() -> Vec<Script> {
    let long = |bytes: &[u8]| (1_000..=run::MOST_SCRIPT).contains(&bytes.len()) && !refuses_a_check(bytes);
    let mut scripts = generated(Kind::Damaged, 16, long);
    let mut rng = Rng::new(1);
    let any: Vec<u8> = (0..60_000).map(|_| rng.below(256) as u8).collect();
    scripts.push(script("any bytes", any));
    let letters = b"0123456789,=\nchekpushpoptermvar";
    let any: Vec<u8> = (0..60_000).map(|_| letters[rng.below(letters.len())]).collect();
    scripts.push(script("any letters of the language", any));
    scripts.push(script("one long line", vec![b'7'; 65_536]));
    scripts.push(script("empty lines", b"\n".repeat(6_000)));
    scripts
}
