//! Any bytes are answered, and what the builders write reads.

use crate::scripts::{line_by_line, read};
use robinlocker::{run, Answer, Line, Lit, Question, Session, Var, RUN_OUTPUT_BYTES};

/// Numbers that look random and are the same in each test.
pub struct Numbers(pub u64);

impl Numbers {
    pub fn below(&mut self, bound: u32) -> u32 {
        self.0 = self.0.wrapping_mul(6_364_136_223_846_793_005).wrapping_add(1_442_695_040_888_963_407);
        ((self.0 >> 33) % u64::from(bound)) as u32
    }

    /// Mostly small, sometimes any.
    fn any(&mut self) -> u32 {
        if self.below(4) > 0 {
            self.below(20)
        } else {
            self.below(u32::MAX)
        }
    }

    fn list(&mut self) -> Vec<u32> {
        (0..self.below(17)).map(|_| self.any()).collect()
    }

    fn byte(&mut self) -> u8 {
        let usual = b"=,0123456789sortclemvquadginfphk\n";
        if self.below(4) > 0 {
            usual[self.below(usual.len() as u32) as usize]
        } else {
            self.below(256) as u8
        }
    }

    fn var(&mut self) -> Var {
        Var(self.any() as u16)
    }

    fn lit(&mut self) -> Lit {
        let var = self.var();
        if self.below(2) == 0 {
            var.positive()
        } else {
            var.negative()
        }
    }

    fn line(&mut self) -> Line {
        match self.below(15) {
            0 => Line::Sort { datatype: self.below(2) == 0 },
            1 => Line::Ctor { sort: self.any(), fields: self.list() },
            2 => Line::Fun { result: self.any(), arguments: self.list() },
            3 => Line::Close,
            4 => Line::Term { symbol: self.any(), arguments: self.list() },
            5 => Line::Eq(self.any(), self.any()),
            6 => Line::Var { var: self.var(), atom: self.any() },
            7 => Line::Equate(self.lit()),
            8 => Line::Cong(self.any(), self.any()),
            9 => Line::Iface { left: self.any(), right: self.any(), theory: self.any() as u16, tag: self.any() },
            10 => Line::Assert(self.lit()),
            11 => Line::Differ(self.lit()),
            12 => Line::Push,
            13 => Line::Pop(self.any()),
            _ => Line::Check { full: self.below(2) == 0 },
        }
    }
}

/// Changes some bytes of a script.
fn damage(script: &[u8], numbers: &mut Numbers) -> Vec<u8> {
    let mut script = script.to_vec();
    for _ in 0..=numbers.below(5) {
        let at = numbers.below(script.len() as u32) as usize;
        match numbers.below(3) {
            0 => script[at] = numbers.byte(),
            1 => script.insert(at, numbers.byte()),
            _ => drop(script.remove(at)),
        }
    }
    script
}

#[test]
fn damaged_scripts_are_answered_alike_by_run_and_line_by_line() {
    let sheet = read("crates/robinlocker/stdin");
    let mut numbers = Numbers(1);
    for _ in 0..500 {
        let script = damage(&sheet, &mut numbers);
        assert_eq!(line_by_line(&script, RUN_OUTPUT_BYTES), run(&script), "{:?}", String::from_utf8_lossy(&script));
    }
}

#[test]
fn any_bytes_are_answered_alike_by_run_and_line_by_line() {
    let mut numbers = Numbers(2);
    for _ in 0..500 {
        let script: Vec<u8> = (0..numbers.below(400)).map(|_| numbers.byte()).collect();
        assert_eq!(line_by_line(&script, RUN_OUTPUT_BYTES), run(&script), "{:?}", String::from_utf8_lossy(&script));
    }
}

#[test]
fn lines_with_a_line_feed_and_very_long_lines_do_not_read() {
    let mut session = Session::new();
    for line in [&b""[..], b"\n", b"sort=d\n", b"\nsort=d", b"sort=d\nsort=d", &[b'1'; 100_000]] {
        assert_eq!(session.line(line), Answer::Refused(Question::Reads));
    }
    // None of them declared a sort.
    assert_eq!(session.line(b"fun=1"), Answer::Refused(Question::Exists));
}

#[test]
fn what_is_written_reads_back_and_is_read_by_the_library() {
    let (mut numbers, mut accepted) = (Numbers(3), 0);
    for _ in 0..40 {
        let mut session = Session::new();
        for _ in 0..100 {
            let line = numbers.line();
            assert_eq!(Line::parse(&line.to_bytes()), Ok(line.clone()));
            let answer = session.send(&line);
            assert_ne!(answer, Answer::Refused(Question::Reads), "{line}");
            assert_eq!(Answer::parse(answer.to_string().as_bytes()), Ok(answer.clone()));
            accepted += usize::from(!matches!(answer, Answer::Refused(_)));
        }
    }
    assert!(accepted > 500, "{accepted}");
}

#[test]
fn more_than_sixteen_arguments_do_not_read() {
    let mut session = Session::new();
    let fun = |count| Line::Fun { result: 0, arguments: vec![0; count] };
    assert_eq!(session.send(&fun(16)), Answer::Ok);
    assert_eq!(session.send(&fun(17)), Answer::Refused(Question::Reads));
}
