//! Answers scripts with the published solver or the definition, makes scripts, and counts what they meet.

use oracle::definition::Beyond;
use oracle::generate::{self, Kind};
use oracle::run::{self, Source};
use oracle::{agree, compare, records, rows, statistic};
use std::io::{Read, Write};

const USAGE: &str = "harness answer [--result]
harness generate KIND SEED
harness batch KIND COUNT SEED
harness statistic KIND COUNT SEED
harness fixed EXAMPLES
harness verify
harness negative
harness unequal
harness agree KIND COUNT SEED
harness rows FILE
harness compare PROGRAM COUNT SEED
KIND is search, reacting, refused, limits, damaged, negative, unequal or any.";

fn main() {
    let arguments: Vec<String> = std::env::args().skip(1).collect();
    let arguments: Vec<&str> = arguments.iter().map(String::as_str).collect();
    if command(&arguments).is_none() {
        eprintln!("{USAGE}");
        std::process::exit(64);
    }
}

fn command(arguments: &[&str]) -> Option<()> {
    match arguments {
        ["answer"] => answer(false),
        ["answer", "--result"] => answer(true),
        ["generate", kind, seed] => put(&generate::script(Kind::named(kind)?, seed.parse().ok()?)),
        ["batch", kind, count, seed] => {
            records::write_batch(Kind::named(kind)?, count.parse().ok()?, seed.parse().ok()?, &mut std::io::stdout());
        }
        ["statistic", kind, count, seed] => {
            statistic(Kind::named(kind)?, count.parse().ok()?, seed.parse().ok()?);
        }
        ["fixed", examples] => records::write_fixed(examples.as_ref(), &mut std::io::stdout()),
        ["verify"] => verify(),
        ["negative"] => places(|beyond| beyond.negative_tester),
        ["unequal"] => places(|beyond| beyond.unequal_terms),
        ["agree", kind, count, seed] => agree(Kind::named(kind)?, count.parse().ok()?, seed.parse().ok()?),
        ["rows", file] => rows(file),
        ["compare", program, count, seed] => compare(program, count.parse().ok()?, seed.parse().ok()?),
        _ => return None,
    }
    Some(())
}

fn put(bytes: &[u8]) {
    std::io::stdout().write_all(bytes).expect("standard output");
}

fn input() -> Vec<u8> {
    let mut bytes = Vec::new();
    std::io::stdin().read_to_end(&mut bytes).expect("standard input");
    bytes
}

/// Answers standard input, and says on standard error whether a line was refused.
fn answer(with_result: bool) {
    let (run, source) = run::agreed(&input());
    put(&run.output);
    if source == Source::Definition {
        eprintln!("answered by the definition: a negative tester is asserted, or terms are said to differ");
    }
    match run.refused {
        0 => eprintln!("no line refused"),
        refused => eprintln!("{refused} lines refused"),
    }
    if with_result {
        eprintln!("result={} lines={} bytes={}", run.result, run.lines, run.output.len());
    }
}

/// Prints the places, from 0, of the records on standard input whose script has this.
fn places(has: fn(Beyond) -> bool) {
    records::places(&input(), has).iter().for_each(|place| println!("{place}"));
}

fn statistic(kind: Kind, count: u64, seed: u64) {
    let mut statistic = statistic::Statistic::default();
    for script in (0..count).map(|place| generate::script(kind, seed + place)) {
        statistic.add(statistic::met_by(&script));
    }
    statistic.print();
}

/// Answers generated scripts by the definition and by the published Rust, and compares.
fn agree(kind: Kind, count: u64, seed: u64) {
    if let Err(script) = agree::agree(kind, count, seed) {
        println!("the definition and the published Rust answer this script otherwise:");
        put(&script);
        std::process::exit(1);
    }
}

/// Answers the definition's own tables, which stand in the file, and compares.
fn rows(file: &str) {
    let text = std::fs::read_to_string(file).expect("the file of the tables");
    match rows::rows(&text) {
        Ok(count) => println!("rows: {count} rows of the definition's tables answered alike"),
        Err(what) => {
            println!("{what}");
            std::process::exit(1);
        }
    }
}

/// Answers generated scripts by the program, too, and compares.
fn compare(program: &str, count: u64, seed: u64) {
    if let Err(script) = compare::compare(program, count, seed) {
        println!("the first script answered otherwise:");
        put(&script);
        std::process::exit(1);
    }
}

/// Answers the scripts of records on standard input anew and compares. Says on standard error which differ.
fn verify() {
    let (count, differing) = records::verify(&input());
    println!("{count} scripts, {} answered otherwise", differing.len());
    differing.iter().for_each(|place| eprintln!("record {place}, from 0, is answered otherwise"));
    if !differing.is_empty() {
        std::process::exit(1);
    }
}
