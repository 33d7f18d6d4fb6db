//! Generated scripts through the proved library and the published solver: answer bytes, result, counts, the output
//! past the last answer and the work tables are compared. Scripts with a negative tester or unequal terms are held to the
//! definition alone; on the others the definition is held to the published solver too. The library is sent each script whole
//! and line by line.

use crate::library::{self, Lent, Ran, Way, TABLE_WORDS};
use oracle::generate::{self, Kind};
use oracle::rng::Rng;
use oracle::run::{self, Right, Run, Source, MOST_OUTPUT};
use oracle::statistic::{self, Statistic};
use std::sync::atomic::{AtomicBool, AtomicU64, Ordering};
use std::time::{Duration, Instant};

const SECONDS_BETWEEN_PROGRESS: u64 = 10;

/// How much memory a run is lent, and where the numbers that fill it begin.
#[derive(Clone, Copy, Debug)]
struct Loan {
    tables: [usize; 3],
    output: usize,
    fill: u64,
}

impl Loan {
    /// Mostly what the program lends; now and then more, a short output or a short table.
    fn any(rng: &mut Rng) -> Loan {
        let mut loan = Loan { tables: [TABLE_WORDS; 3], output: MOST_OUTPUT, fill: rng.below(1 << 30) as u64 };
        match rng.below(100) {
            0..=79 => {}
            80..=89 => {
                loan.tables = [0; 3].map(|_: usize| TABLE_WORDS + rng.below(100));
                loan.output = MOST_OUTPUT + rng.below(10_000);
            }
            90..=96 => loan.output = rng.below(1_000),
            _ => loan.tables[rng.below(3)] = rng.below(TABLE_WORDS),
        }
        loan
    }

    fn has_short_table(&self) -> bool {
        self.tables.iter().any(|&words| words < TABLE_WORDS)
    }

    /// The memory, with contents that no run would leave by chance.
    fn lend(&self) -> Lent {
        let table = |which: usize| (0..self.tables[which] as u64).map(|at| self.word(at)).collect();
        let output = (0..self.output as u64).map(|at| self.byte(at)).collect();
        Lent { core: table(0), theory: table(1), solver: table(2), output }
    }

    fn word(&self, at: u64) -> u32 {
        ((self.fill + at).wrapping_mul(0x9e37_79b9_7f4a_7c15) >> 32) as u32
    }

    fn byte(&self, at: u64) -> u8 {
        self.word(at) as u8
    }

    fn is_untouched(&self, table: &[u32]) -> bool {
        table.iter().enumerate().all(|(at, &word)| word == self.word(at as u64))
    }

    fn is_untouched_from(&self, start: usize, output: &[u8]) -> bool {
        output.iter().enumerate().skip(start).all(|(at, &byte)| byte == self.byte(at as u64))
    }
}

/// The run that 01 asks for, and whose it is. Question 1 is answered here, since neither source has tables.
fn right_run(script: &[u8], loan: &Loan) -> Right {
    let mut right = run::right(script, loan.output);
    if loan.has_short_table() {
        right.run = Run { result: 1, lines: 0, refused: 0, output: Vec::new() };
    }
    right
}

/// What the library's run has otherwise than the right run, if anything.
fn difference(right: &Right, loan: &Loan, lent: &Lent, ran: Ran) -> Option<&'static str> {
    let Right { run: right, agreed, .. } = right;
    let started = right.result != 1 && right.result != 2;
    let tables = [&lent.core, &lent.theory, &lent.solver];
    let tables_are_right =
        if started { lent.tables_are_zero() } else { tables.iter().all(|table| loan.is_untouched(table)) };
    let parts = [
        ("the definition's answers from the published Rust's", *agreed),
        ("the result", ran.result == right.result),
        ("the lines answered", ran.lines == right.lines),
        ("the bytes written", ran.bytes == right.output.len()),
        ("the answers", lent.output.starts_with(&right.output)),
        ("the output past the last answer", loan.is_untouched_from(right.output.len(), &lent.output)),
        ("the work tables", tables_are_right),
    ];
    parts.iter().find(|(_, equal)| !equal).map(|&(what, _)| what)
}

/// What differs, and how the script was sent. Question 2 is asked of whole scripts alone.
fn compare(script: &[u8], loan: &Loan) -> (Right, Option<(Way, &'static str)>) {
    let right = right_run(script, loan);
    let ways: &[Way] = if right.run.result == 2 { &[Way::Whole] } else { &[Way::Whole, Way::LineByLine] };
    let found = ways.iter().find_map(|&way| {
        let mut lent = loan.lend();
        let ran = library::answer(way, script, &mut lent);
        difference(&right, loan, &lent, ran).map(|what| (way, what))
    });
    (right, found)
}

/// A script that still differs and of which no line can be dropped.
fn smallest(script: &[u8], loan: &Loan) -> Vec<u8> {
    let mut lines: Vec<&[u8]> = script.split_inclusive(|&byte| byte == b'\n').collect();
    let mut stretch = lines.len().div_ceil(2);
    while stretch > 0 {
        let before = lines.len();
        drop_stretches(&mut lines, stretch, loan);
        if lines.len() == before {
            stretch /= 2;
        }
    }
    lines.concat()
}

/// Drops each stretch of so many lines without which the runs still differ.
fn drop_stretches(lines: &mut Vec<&[u8]>, stretch: usize, loan: &Loan) {
    let mut start = 0;
    while start < lines.len() {
        let end = (start + stretch).min(lines.len());
        let rest = [&lines[..start], &lines[end..]].concat();
        if compare(&rest.concat(), loan).1.is_some() {
            *lines = rest;
        } else {
            start = end;
        }
    }
}

struct Found {
    kind: Kind,
    seed: u64,
    loan: Loan,
    script: Vec<u8>,
    way: Way,
    what: &'static str,
}

impl Found {
    fn report(&self) {
        let smallest = smallest(&self.script, &self.loan);
        let (right, what) = compare(&smallest, &self.loan);
        let mut lent = self.loan.lend();
        let (way, what) = what.unwrap_or((self.way, "nothing"));
        let ran = library::answer(way, &smallest, &mut lent);
        println!("{:?} {} sent {:?} differs in {}, with {:?}", self.kind, self.seed, self.way, self.what, self.loan);
        println!("the smallest script, which sent {way:?} differs in {what}:");
        println!("{}", String::from_utf8_lossy(&smallest));
        println!("right by {:?}: result {}, {} lines", right.source, right.run.result, right.run.lines);
        println!("{}", String::from_utf8_lossy(&right.run.output));
        println!("library: {ran:?}");
        println!("{}", String::from_utf8_lossy(&lent.output[..ran.bytes.min(lent.output.len())]));
    }
}

#[derive(Default)]
struct Tally {
    scripts: u64,
    /// How many of them have a negative tester or unequal terms.
    defined: u64,
    lines: usize,
    bytes: usize,
    results: [u64; 13],
    met: Statistic,
}

impl Tally {
    fn add(&mut self, script: &[u8], right: &Right) {
        let Right { run, source, .. } = right;
        self.scripts += 1;
        self.defined += u64::from(*source == Source::Definition);
        self.lines += run.lines;
        self.bytes += run.output.len();
        self.results[run.result as usize] += 1;
        self.met.add(statistic::met_by(script));
    }

    fn join(&mut self, other: Tally) {
        self.scripts += other.scripts;
        self.defined += other.defined;
        self.lines += other.lines;
        self.bytes += other.bytes;
        for (all, &count) in self.results.iter_mut().zip(&other.results) {
            *all += count;
        }
        self.met.join(other.met);
    }

    fn print(&self, seconds: u64) {
        let results: Vec<String> = [0, 1, 2, 12].map(|n| format!("{} with result {n}", self.results[n])).to_vec();
        let results = results.join(", ");
        println!("{} scripts ({results}), {} lines, {} bytes: no difference", self.scripts, self.lines, self.bytes);
        println!("each sent whole and, but for those with result 2, line by line");
        println!("{} held to the published Rust and the definition", self.scripts - self.defined);
        println!("{} with a negative tester or unequal terms held to the definition alone", self.defined);
        println!("{} minutes {} seconds; met by whole runs of these scripts:", seconds / 60, seconds % 60);
        self.met.print();
    }
}

/// What the workers share.
struct Shared {
    count: u64,
    seed: u64,
    next: AtomicU64,
    stop: AtomicBool,
}

impl Shared {
    /// Answers scripts by both until none is left, or a difference is found by any worker.
    fn work(&self) -> Result<Tally, Found> {
        let mut tally = Tally::default();
        while !self.stop.load(Ordering::Relaxed) {
            let place = self.next.fetch_add(1, Ordering::Relaxed);
            if place >= self.count {
                break;
            }
            let kind = Kind::ALL[place as usize % Kind::ALL.len()];
            let seed = self.seed + place;
            let script = generate::script(kind, seed);
            let loan = Loan::any(&mut Rng::new(!seed));
            let (right, found) = compare(&script, &loan);
            if let Some((way, what)) = found {
                self.stop.store(true, Ordering::Relaxed);
                return Err(Found { kind, seed, loan, script, way, what });
            }
            tally.add(&script, &right);
        }
        Ok(tally)
    }

    fn say_progress(&self, start: Instant) {
        let done = self.next.load(Ordering::Relaxed).min(self.count);
        eprintln!("{done} of {} scripts, {} s", self.count, start.elapsed().as_secs());
    }
}

/// Takes the scripts in turn from all kinds. True if no run differs.
pub fn differential(count: u64, seed: u64) -> bool {
    let start = Instant::now();
    let shared = Shared { count, seed, next: AtomicU64::new(0), stop: AtomicBool::new(false) };
    let workers = std::thread::available_parallelism().map_or(1, usize::from);
    let ended = std::thread::scope(|scope| {
        let threads: Vec<_> = (0..workers).map(|_| scope.spawn(|| shared.work())).collect();
        let mut said = Instant::now();
        while !threads.iter().all(|thread| thread.is_finished()) {
            std::thread::sleep(Duration::from_millis(50));
            if said.elapsed() >= Duration::from_secs(SECONDS_BETWEEN_PROGRESS) {
                said = Instant::now();
                shared.say_progress(start);
            }
        }
        threads.into_iter().map(|thread| thread.join().expect("a worker")).collect::<Result<Vec<Tally>, Found>>()
    });
    match ended {
        Ok(tallies) => {
            let mut all = Tally::default();
            tallies.into_iter().for_each(|tally| all.join(tally));
            all.print(start.elapsed().as_secs());
            true
        }
        Err(found) => {
            found.report();
            false
        }
    }
}
