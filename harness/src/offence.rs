//! Lines that the session refuses, for most of the questions 3 to 11 and 13. Now and then one is accepted by chance.

use crate::rng::Rng;
use crate::search::Search;
use crate::signature::Signature;
use crate::writer::Writer;

const UNREADABLE: &[&str] = &[
    "", "=", "sort", "sort=", "sort=x", "sort=1", "sort=dd", "sort=d,u", "ctor=", "ctor=a", "ctor=1,", "ctor=,1",
    "fun=", "fun=00", "close=0", "close=2", "close=1,1", "term=", "term=0,,0", "term=01", "term=+1", "term=-1",
    "term= 1", "term=1 ", "term=4294967296", "term=99999999999999999999", "eq=0", "eq=0,1,2", "var=0", "var=1,2,3",
    "equate=", "equate=0,0", "cong=1", "cong=0,1,2", "iface=0,1,2", "iface=0,0,65536,0", "iface=0,1,2,3,4", "assert=",
    "assert=0,1", "push=0", "push=2", "pop=", "pop=0,0", "check=2", "check=", "check=1,0", "Check=1", "check=1\r",
    "check:1", "level=1", "=1", "term==1", "term=1,2,3,4,5,6,7,8,9,10,11,12,13,14,15,16,17,18", "differ", "differ=",
    "differ=1,1", "differ=01", "differ=4294967296", "Differ=1", "model=1", "shrink=1", "count=1,1", "why=0,1", "who=1",
    "sweep=1", "splits=1",
];

const AFTER_CLOSE: &[&str] = &[
    "term=0", "eq=0,1", "var=0,0", "equate=0", "cong=0,0", "iface=0,0,0,0", "assert=0", "push=1", "pop=0", "check=1",
    "check=0", "term=4294967295", "var=1024,0", "differ=0", "differ=1", "differ=4294967295",
];

const BEFORE_CLOSE: &[&str] = &["sort=d", "sort=u", "ctor=1", "fun=0", "close=1", "ctor=4294967295"];

fn constant_line(rng: &mut Rng, w: &mut Writer, lines: &[&str]) {
    w.line(lines[rng.below(lines.len())]);
}

/// A refused line among the declarations.
pub fn among_declarations(rng: &mut Rng, w: &mut Writer, signature: &Signature) {
    let sorts = signature.datatype.len();
    let others: Vec<usize> = (0..sorts).filter(|&sort| !signature.datatype[sort]).collect();
    match rng.below(6) {
        0 => constant_line(rng, w, UNREADABLE),
        1 => constant_line(rng, w, AFTER_CLOSE),
        2 => {
            let unknown = sorts + rng.below(3);
            let numbers = [[unknown, 0], [rng.below(sorts), unknown]];
            let key = if rng.chance(50) { "ctor" } else { "fun" };
            w.numbers(key, &numbers[rng.below(2)]);
        }
        3 => {
            w.numbers("ctor", &[others[rng.below(others.len())], rng.below(sorts)]);
        }
        _ if !signature.may_close() => {
            w.line("close=1");
        }
        _ => constant_line(rng, w, UNREADABLE),
    }
}

impl Search<'_> {
    /// A refused line after the declarations.
    pub fn offend(&mut self) {
        match self.rng.below(10) {
            0 => constant_line(self.rng, &mut self.w, UNREADABLE),
            1 => constant_line(self.rng, &mut self.w, BEFORE_CLOSE),
            2 => self.name_the_unknown(),
            3 | 4 => self.mismatch(),
            5 => self.register_again(),
            6 => self.equate_wrongly(),
            7 => self.join_unlike(),
            8 => self.differ_wrongly(),
            _ => self.open_levels(),
        }
    }

    fn any_number(&mut self) -> usize {
        self.rng.below(self.w.session.term_count().max(1))
    }

    fn name_the_unknown(&mut self) {
        let unknown = self.w.session.term_count() + self.rng.below(3);
        let t = self.any_number();
        let symbols = self.signature.symbols.len();
        let variable = (0..).find(|v| !self.variables.iter().any(|(known, _)| known == v)).expect("a free variable");
        match self.rng.below(10) {
            0 => self.w.numbers("term", &[symbols + self.rng.below(2)]),
            1 => self.w.numbers("term", &[self.rng.below(symbols), unknown]),
            2 => self.w.numbers("eq", &[t, unknown]),
            3 => self.w.numbers("var", &[variable, unknown]),
            4 => self.w.numbers("var", &[self.rng.between(1_024, 1_025), t]),
            5 => self.w.numbers("equate", &[2 * variable]),
            6 => self.w.numbers("assert", &[2 * variable + 1]),
            7 => self.w.numbers("cong", &[unknown, t]),
            8 => self.w.numbers("differ", &[2 * variable + self.rng.below(2)]),
            _ => self.w.numbers("iface", &[t, unknown, 0, 0]),
        };
    }

    fn mismatch(&mut self) {
        let (t, u) = (self.any_number(), self.any_number());
        let symbol = self.rng.below(self.signature.symbols.len());
        match self.rng.below(6) {
            0 => self.w.numbers("eq", &[t, t]),
            1 => self.w.numbers("eq", &[t, u]),
            2 => self.w.numbers("term", &[symbol, t]),
            3 => self.w.numbers("term", &[symbol, t, u]),
            4 => self.w.numbers("iface", &[t, u, 1, 1]),
            _ => self.w.numbers("term", &[symbol]),
        };
    }

    fn register_again(&mut self) {
        if let Some(&(variable, atom)) = self.rng.pick(&self.variables) {
            self.w.numbers("var", &[variable, atom]);
        }
    }

    fn equate_wrongly(&mut self) {
        if let Some(&(variable, atom)) = self.rng.pick(&self.variables) {
            let equation = self.w.session.symbol_of(atom).is_none();
            self.w.numbers("equate", &[2 * variable + usize::from(equation)]);
        }
    }

    /// A positive literal or, of an atom that is no equation, either one.
    fn differ_wrongly(&mut self) {
        if let Some(&(variable, atom)) = self.rng.pick(&self.variables) {
            let equation = self.w.session.symbol_of(atom).is_none();
            let sign = if equation { 0 } else { self.rng.below(2) };
            self.w.numbers("differ", &[2 * variable + sign]);
        }
    }

    fn join_unlike(&mut self) {
        let (t, u) = (self.any_number(), self.any_number());
        self.w.numbers("cong", &[t, u]);
    }

    /// Opens levels, now and then more than there may be.
    fn open_levels(&mut self) {
        let count = if self.rng.chance(10) { 65 } else { 1 };
        for _ in 0..count {
            self.w.line("push=1");
        }
    }
}
