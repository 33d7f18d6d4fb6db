//! Scripts at the limits: terms, places, pairs, levels, sorts, symbols, numbers, leaves, script and output sizes.

use crate::needs::Needs;
use crate::rng::Rng;
use crate::run::{MOST_OUTPUT, MOST_SCRIPT};
use crate::search::{Search, Size};
use crate::session::{MOST_LEVELS, MOST_PAIRS, MOST_PLACES, MOST_SORTS, MOST_SYMBOLS, MOST_TERMS, MOST_VARIABLES};
use crate::writer::Writer;

pub type Family = fn(&mut Rng) -> Vec<u8>;

pub const FAMILIES: &[Family] = &[
    terms, full_checks, crowd, places, place_checks, pairs, levels, sorts, inhabitation, symbols, numbers, leaves,
    long_ring, tall_towers, script_size, output_size, unequal,
];

/// A script of a random family; the size families come more often, since each of their scripts meets its limit once.
pub fn limits(rng: &mut Rng) -> Vec<u8> {
    match rng.below(FAMILIES.len() + 6) {
        0..=1 => script_size(rng),
        2..=5 => output_size(rng),
        family => FAMILIES[family - 6](rng),
    }
}

/// Natural numbers, a constant (symbol 5), a function (6), a predicate (7) and a function of two arguments (8).
fn declare_numbers(w: &mut Writer) {
    for line in ["sort=d", "ctor=1", "ctor=1,1", "fun=1", "fun=1,1", "fun=0,1", "fun=1,1,1", "close=1"] {
        w.line(line);
    }
}

/// Makes applications of unary symbols 2, 4 and 6 over what is there until the table holds `count` terms.
fn fill_table(rng: &mut Rng, w: &mut Writer, count: usize) {
    w.line("term=0");
    let mut last = w.term("term", &[5]).unwrap_or(0);
    while w.session.term_count() < count {
        let symbol = [2, 4, 6][rng.below(3)];
        last = w.term("term", &[symbol, last]).unwrap_or(last);
    }
}

/// Lines that name or make terms on a table that is full or nearly so.
fn more_terms(rng: &mut Rng, w: &mut Writer, count: usize) {
    for _ in 0..count {
        let (t, u) = (rng.below(MOST_TERMS + 1), rng.below(MOST_TERMS + 1));
        match rng.below(4) {
            0 => w.numbers("eq", &[t, u]),
            1 => w.numbers("term", &[rng.below(2) * 5]),
            _ => w.numbers("term", &[rng.between(1, 7), t]),
        };
    }
}

fn terms(rng: &mut Rng) -> Vec<u8> {
    let mut w = Writer::new();
    declare_numbers(&mut w);
    let count = MOST_TERMS - rng.below(4);
    fill_table(rng, &mut w, count);
    more_terms(rng, &mut w, 20);
    w.script
}

/// Checks that make terms on a table with little room, refused or not.
fn full_checks(rng: &mut Rng) -> Vec<u8> {
    let refused = rng.below(2) * 10;
    let mut search = Search::start(rng, Size::Middle, refused);
    search.make_terms(12);
    search.make_atoms(8);
    let left = search.rng.below(7);
    search.fill_table(MOST_TERMS - left);
    for _ in 0..search.rng.between(10, 30) {
        search.step_over_known_terms();
    }
    search.w.script
}

impl Search<'_> {
    fn fill_table(&mut self, count: usize) {
        let sort = self.signature.datatypes()[0];
        let constant = self.signature.constants_of(sort)[0];
        let function = self.endofunction(sort);
        let mut last = self.w.term("term", &[constant]).unwrap_or(0);
        while self.w.session.term_count() < count {
            last = self.w.term("term", &[function, last]).unwrap_or(last);
        }
    }
}

/// Declares a datatype with a record constructor of 16 fields, an enumerated one and constants of it; functions of
/// 16 places and of 1 place. Symbols: 0 the record, 1 its tester, 2 to 17 its selectors, 18 and 19 a plain
/// constructor and its tester, 20 and 21 constants, 22 the wide function, 23 the narrow one.
fn declare_wide(w: &mut Writer) {
    w.line("sort=d");
    w.numbers("ctor", &[1; 17]);
    for line in ["ctor=1", "fun=1", "fun=1"] {
        w.line(line);
    }
    w.numbers("fun", &[1; 17]);
    w.line("fun=1,1");
    w.line("close=1");
}

/// A wide application over the constants 0 and 1, told apart by the bits of `code`.
fn wide_application(w: &mut Writer, symbol: usize, code: usize) -> Option<usize> {
    let mut numbers = vec![symbol];
    numbers.extend((0..16).map(|bit| (code >> bit) & 1));
    w.term("term", &numbers)
}

/// Fills the argument places up to `count`, with wide applications first.
fn fill_places(rng: &mut Rng, w: &mut Writer, count: usize) {
    w.line("term=20");
    w.line("term=21");
    let wide = count / 16;
    let first = rng.below(1_000);
    for code in 0..wide {
        wide_application(w, 22 * usize::from(rng.chance(70)), first + code);
    }
    let mut last = 0;
    for _ in 16 * wide..count {
        last = w.term("term", &[23, last]).unwrap_or(last);
    }
}

fn places(rng: &mut Rng) -> Vec<u8> {
    let mut w = Writer::new();
    declare_wide(&mut w);
    let count = MOST_PLACES - rng.below(20);
    fill_places(rng, &mut w, count);
    for _ in 0..10 {
        match rng.below(4) {
            0 => wide_application(&mut w, 22, rng.below(2_000)),
            1 => w.term("term", &[18 + rng.below(4)]),
            2 => w.term("eq", &[rng.below(30), rng.below(30)]),
            _ => w.term("term", &[23, rng.below(300)]),
        };
    }
    w.script
}

/// Checks that need argument places when few are left.
fn place_checks(rng: &mut Rng) -> Vec<u8> {
    let mut w = Writer::new();
    declare_wide(&mut w);
    let left = rng.below(60);
    fill_places(rng, &mut w, MOST_PLACES - 12 - left);
    for line in ["eq=0,1", "term=1,0", "term=19,1", "term=1,1"] {
        w.line(line);
    }
    let first = w.session.term_count() - 4;
    for variable in 0..4 {
        w.numbers("var", &[variable, first + variable]);
    }
    for _ in 0..rng.between(4, 12) {
        match rng.below(6) {
            0 => w.numbers("assert", &[2 * rng.between(1, 3)]),
            1 => w.line("equate=0"),
            2 => w.numbers("iface", &[rng.below(60), rng.below(60), 1, rng.below(4)]),
            3 => w.line("push=1"),
            4 => w.line("pop=0"),
            _ => w.line("check=1"),
        };
    }
    w.line("check=1");
    w.script
}

fn pairs(rng: &mut Rng) -> Vec<u8> {
    let mut w = Writer::new();
    declare_wide(&mut w);
    w.line("term=20");
    w.line("term=21");
    w.line("term=23,0");
    w.line("term=23,1");
    let applications: Vec<usize> = (0..140).filter_map(|code| wide_application(&mut w, 22, code)).collect();
    w.line("eq=0,1");
    w.numbers("var", &[0, w.session.term_count() - 1]);
    let narrow = rng.chance(50);
    w.line("iface=0,1,2,7");
    if narrow {
        w.line("cong=2,3");
    }
    let pushed = rng.below(120);
    for (place, application) in applications[1..].iter().enumerate() {
        if place == pushed {
            w.line("push=1");
        }
        let sides = if rng.chance(50) { [applications[0], *application] } else { [*application, applications[place]] };
        w.numbers("cong", &sides);
    }
    w.numbers("cong", &[2, 3]);
    w.numbers("cong", &[applications[1], applications[2]]);
    if rng.chance(60) {
        w.line("pop=0");
        w.line("cong=2,3");
        let most = MOST_PAIRS / 16 + 2;
        for application in applications.iter().take(most) {
            w.numbers("cong", &[*application, applications[0]]);
        }
    }
    w.line("check=1");
    w.script
}

fn levels(rng: &mut Rng) -> Vec<u8> {
    let mut search = Search::start(rng, Size::Small, 5);
    search.make_terms(4);
    search.make_atoms(4);
    for _ in 0..MOST_LEVELS + search.rng.between(0, 6) {
        search.w.line("push=1");
        if search.rng.chance(20) {
            search.step_over_known_terms();
        }
    }
    for _ in 0..search.rng.between(1, 12) {
        let level = search.rng.between(0, MOST_LEVELS + 3);
        search.w.numbers("pop", &[level]);
        for _ in 0..search.rng.below(4) {
            search.w.line("push=1");
        }
        search.step_over_known_terms();
    }
    search.w.script
}

fn sorts(rng: &mut Rng) -> Vec<u8> {
    let mut w = Writer::new();
    for _ in 0..MOST_SORTS + rng.between(0, 6) - 2 {
        w.line(if rng.chance(30) { "sort=d" } else { "sort=u" });
    }
    for sort in 0..MOST_SORTS + 2 {
        w.numbers("ctor", &[sort]);
    }
    w.numbers("fun", &[rng.between(60, 65), rng.between(60, 65)]);
    w.line("sort=d");
    w.line("close=1");
    w.line("check=1");
    w.script
}

/// Datatypes, mostly as many as there may be, each over the one before it in some order, now and then in a ring. The
/// first one's plain constructor comes when `close` was refused, in a few scripts never.
fn inhabitation(rng: &mut Rng) -> Vec<u8> {
    let mut w = Writer::new();
    let count = if rng.chance(60) { MOST_SORTS - 1 } else { rng.between(2, MOST_SORTS - 2) };
    for _ in 0..count {
        w.line("sort=d");
    }
    w.line("sort=u");
    let order = Needs::Chain.order(rng, (1..=count).collect());
    let (first, last) = (order[0], order[count - 1]);
    let mut links: Vec<[usize; 2]> = order.windows(2).map(|two| [two[1], two[0]]).collect();
    if rng.chance(40) {
        links.push([first, last]);
    }
    rng.shuffle(&mut links);
    for link in &links {
        w.numbers("ctor", link);
    }
    w.numbers("fun", &[last]);
    w.line("close=1");
    if rng.chance(85) {
        w.numbers("ctor", &[first]);
    }
    w.line("close=1");
    let constructors: Vec<usize> = order[1..].iter().map(|sort| 3 * place_of(&links, *sort)).collect();
    use_tree(&mut w, 3 * links.len(), &constructors);
    w.script
}

/// The place of the constructor of a sort other than the first.
fn place_of(links: &[[usize; 2]], sort: usize) -> usize {
    links.iter().position(|link| link[0] == sort).expect("each has one")
}

/// The tree of all the constructors over the plain one, which is the symbol behind the constant, and what follows of it
/// for the constant.
fn use_tree(w: &mut Writer, constant: usize, constructors: &[usize]) {
    let mut tree = w.term("term", &[constant + 1]).unwrap_or(0);
    for &constructor in constructors {
        tree = w.term("term", &[constructor, tree]).unwrap_or(tree);
    }
    let x = w.term("term", &[constant]).unwrap_or(0);
    let tester = constructors[constructors.len() - 1] + 1;
    let atoms = [w.term("eq", &[x, tree]).unwrap_or(0), w.term("term", &[tester, x]).unwrap_or(0)];
    for (variable, &atom) in atoms.iter().enumerate() {
        w.numbers("var", &[variable, atom]);
    }
    for line in ["assert=2", "check=1", "check=1", "equate=0", "check=1", "check=1"] {
        w.line(line);
    }
}

fn symbols(rng: &mut Rng) -> Vec<u8> {
    let mut w = Writer::new();
    w.line("sort=d");
    w.line("ctor=1");
    let mut made = 2;
    while made + 18 <= MOST_SYMBOLS {
        let fields = rng.between(0, 16);
        w.numbers("ctor", &vec![1; fields + 1]);
        made += fields + 2;
    }
    for _ in 0..MOST_SYMBOLS + 3 - made {
        w.line(if rng.chance(80) { "fun=1" } else { "ctor=1,0" });
    }
    w.line("close=1");
    for _ in 0..8 {
        w.numbers("term", &[rng.between(MOST_SYMBOLS - 4, MOST_SYMBOLS + 1)]);
    }
    w.line("check=1");
    w.script
}

/// Lines with 16 to 18 numbers and with numbers around the largest.
fn numbers(rng: &mut Rng) -> Vec<u8> {
    let mut w = Writer::new();
    declare_wide(&mut w);
    w.line("term=20");
    w.line("term=21");
    w.line("eq=0,1");
    w.line("var=1023,2");
    const KEYS: &[&str] =
        &["term", "eq", "var", "equate", "cong", "iface", "assert", "push", "pop", "check", "ctor", "differ"];
    const LARGE: &[usize] = &[
        0, 1, 63, 64, 1_023, 1_024, 2_046, 2_047, 2_048, 65_535, 65_536, 2_147_483_647, 2_147_483_648, 4_294_967_294,
        4_294_967_295, 4_294_967_296, 18_446_744_073_709_551_615,
    ];
    for _ in 0..30 {
        let key = KEYS[rng.below(KEYS.len())];
        let right = match key {
            "eq" | "var" | "cong" => 2,
            "iface" => 4,
            "term" | "ctor" => rng.between(16, 18),
            _ => 1,
        };
        let count = if rng.chance(80) { right } else { rng.between(1, 18) };
        let large = rng.chance(60);
        let line: Vec<usize> =
            (0..count).map(|_| if large { LARGE[rng.below(LARGE.len())] } else { rng.below(2) }).collect();
        w.numbers(key, &line);
    }
    w.line("check=1");
    w.script
}

/// A chain of joined terms between two constructors: a conflict of hundreds of leaves.
fn leaves(rng: &mut Rng) -> Vec<u8> {
    let mut w = Writer::new();
    declare_numbers(&mut w);
    let count = rng.between(MOST_TERMS - 200, MOST_TERMS - 10);
    fill_function_chain(&mut w, count);
    w.line("term=0");
    w.line("term=2,0");
    let (zero, successor) = (count, count + 1);
    let ends = [w.term("eq", &[zero, 0]).unwrap_or(0), w.term("eq", &[count - 1, successor]).unwrap_or(0)];
    for (variable, &end) in ends.iter().enumerate() {
        w.numbers("var", &[variable, end]);
    }
    let mut links: Vec<usize> = (0..count - 1).collect();
    if rng.chance(50) {
        rng.shuffle(&mut links);
    }
    let tags = if rng.chance(80) { 4_294_967_296 } else { 50 };
    for link in links {
        let sides = if rng.chance(50) { (link, link + 1) } else { (link + 1, link) };
        w.numbers("iface", &[sides.0, sides.1, rng.below(3), rng.below(tags)]);
    }
    w.line("equate=0");
    w.line("equate=2");
    w.line("check=1");
    w.script
}

fn fill_function_chain(w: &mut Writer, count: usize) {
    let mut last = w.term("term", &[5]).unwrap_or(0);
    while w.session.term_count() < count {
        last = w.term("term", &[6, last]).unwrap_or(last);
    }
}

/// Makes `count` terms f(..f(x)) and succ over each of them, all marked. Returns both lists.
fn marked_successors(w: &mut Writer, count: usize) -> (Vec<usize>, Vec<usize>) {
    fill_function_chain(w, count);
    let successors: Vec<usize> = (0..count).filter_map(|t| w.term("term", &[2, t])).collect();
    for (variable, &successor) in successors.iter().enumerate() {
        let atom = w.term("term", &[7, successor]).unwrap_or(0);
        w.numbers("var", &[variable, atom]);
    }
    ((0..count).collect(), successors)
}

/// Many applications of one constructor in one class: the selectors that a check makes fit the table or do not.
fn crowd(rng: &mut Rng) -> Vec<u8> {
    let mut w = Writer::new();
    declare_numbers(&mut w);
    let count = if rng.chance(60) { rng.between(253, 258) } else { rng.between(30, 330) };
    let (_, successors) = marked_successors(&mut w, count);
    let mut links: Vec<usize> = (1..count).collect();
    rng.shuffle(&mut links);
    for (place, link) in links.into_iter().enumerate() {
        if place == count / 2 {
            w.line("push=1");
        }
        w.numbers("iface", &[successors[link], successors[rng.below(link)], 0, place]);
    }
    for line in ["check=1", "check=1", "pop=0", "check=1", "check=1"] {
        w.line(line);
    }
    w.script
}

fn long_ring(rng: &mut Rng) -> Vec<u8> {
    let mut w = Writer::new();
    declare_numbers(&mut w);
    let count = rng.between(50, 330);
    let (members, successors) = marked_successors(&mut w, count);
    let mut links: Vec<usize> = (0..count).collect();
    rng.shuffle(&mut links);
    for link in links {
        let sides = [members[link], successors[(link + 1) % count]];
        let turned = usize::from(rng.chance(50));
        w.numbers("iface", &[sides[turned], sides[1 - turned], rng.below(2), rng.below(1_000)]);
    }
    w.line("check=1");
    w.script
}

/// Two towers of one function over joined terms: an explanation through hundreds of nested congruences. With two
/// arguments the floors are shared, so there are far more paths than terms.
fn tall_towers(rng: &mut Rng) -> Vec<u8> {
    let mut w = Writer::new();
    declare_numbers(&mut w);
    let height = rng.between(100, 500);
    w.line("term=5");
    w.line("term=4,0");
    let (mut left, mut right) = (0, 1);
    w.line("iface=0,1,9,9");
    let shared = rng.chance(50);
    let floor = |t| if shared { vec![8, t, t] } else { vec![6, t] };
    for _ in 0..height {
        left = w.term("term", &floor(left)).unwrap_or(left);
        right = w.term("term", &floor(right)).unwrap_or(right);
        let sides = if rng.chance(50) { [left, right] } else { [right, left] };
        w.numbers("cong", &sides);
    }
    for (variable, line) in ["term=0", "term=2,0"].into_iter().enumerate() {
        w.line(line);
        let application = w.session.term_count() - 1;
        let top = [left, right][variable];
        let atom = w.term("eq", &[top, application]).unwrap_or(0);
        w.numbers("var", &[variable, atom]);
        w.numbers("equate", &[2 * variable]);
    }
    w.line("check=1");
    w.script
}

/// A script of 65,535 to 65,538 bytes.
fn script_size(rng: &mut Rng) -> Vec<u8> {
    let mut script = crate::search::search(rng, Size::Middle, 0).script;
    let size = MOST_SCRIPT - 1 + rng.below(4);
    let long: &[u8] = b"term=4294967295,4294967295,4294967295,4294967295,4294967295,4294967295,4294967295\n";
    while script.len() + long.len() <= size {
        script.extend_from_slice(long);
    }
    while script.len() < size {
        script.push(if rng.chance(90) { b'0' + rng.below(10) as u8 } else { b'\n' });
    }
    script
}

/// Answers of 65,535 to 65,537 bytes: 5, 6 or 10 bytes each at the end, or a longer one.
fn output_size(rng: &mut Rng) -> Vec<u8> {
    let mut w = crate::search::search(rng, Size::Middle, 0);
    let wanted = MOST_OUTPUT - 1 + rng.below(3);
    while w.output + 60 < wanted {
        w.line("");
    }
    while w.output + 5 <= wanted {
        let rest = wanted - w.output;
        w.line(if rest % 5 == 0 { "pop=70" } else { "check=0" });
    }
    if rng.chance(50) {
        w.line("check=1");
    }
    w.script
}

/// Unequal terms where no table has room: both ends of a chain of terms on a full table, said at each level, in a record
/// as long as there may be.
fn unequal(rng: &mut Rng) -> Vec<u8> {
    let mut w = Writer::new();
    declare_numbers(&mut w);
    let count = rng.between(MOST_TERMS - 200, MOST_TERMS - 2);
    fill_function_chain(&mut w, count);
    let ends = if rng.chance(50) { [0, count - 1] } else { [count - 1, 0] };
    let atom = w.term("eq", &ends).unwrap_or(0);
    let variables = if rng.chance(30) { MOST_VARIABLES as usize } else { rng.between(1, 100) };
    for variable in 0..variables {
        w.numbers("var", &[variable, atom]);
    }
    fill_table(rng, &mut w, MOST_TERMS);
    more_terms(rng, &mut w, 2);
    for variable in 0..variables {
        if rng.chance(20) {
            w.line("push=1");
        }
        w.numbers("differ", &[2 * variable + 1]);
    }
    let middle = rng.below(count - 1);
    for link in (0..count - 1).filter(|&link| link != middle) {
        w.numbers("iface", &[link, link + 1, 0, link]);
    }
    w.line("check=1");
    w.numbers("iface", &[middle + 1, middle, 0, middle]);
    w.line("check=1");
    w.numbers("pop", &[rng.below(MOST_LEVELS)]);
    w.line("check=1");
    w.script
}
