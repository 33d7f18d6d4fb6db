//! Scripts with their answers as one stretch of bytes. A record is a line of four decimal numbers of five digits each,
//! parted by blanks: the bytes of the script, the bytes of the answers, the result and the lines answered; then the
//! script's bytes and the answers' bytes, with nothing between or after them.

use crate::definition::Beyond;
use crate::generate::{self, Kind};
use crate::inhabitation;
use crate::limits;
use crate::negative_topics;
use crate::rng::Rng;
use crate::run::{self, beyond_rust};
use crate::search;
use crate::shortcuts;
use crate::statistic::{self, Statistic};
use crate::topics::TOPICS;
use crate::unequal;
use crate::unequal_topics;
use std::io::Write;
use std::path::Path;

/// Generated scripts of the fixed list: how many of each kind, and the most bytes of one script.
const FIXED: &[(Kind, usize, usize)] =
    &[(Kind::Search, 120, 1_600), (Kind::Reacting, 40, 1_600), (Kind::Refused, 90, 1_600), (Kind::Damaged, 60, 1_600)];
/// Each of them meets something that fewer scripts of its kind than this met before.
const SCARCE: usize = 40;
const SEEDS_PER_KIND: u64 = 10_000;
/// The most bytes of a script on a topic.
const MOST_TOPIC_BYTES: usize = 1_600;
/// Of each family at a limit, the scripts of the first seeds that meet a limit not met before, or the first script.
const SEEDS_PER_FAMILY: u64 = 40;

/// Panics if the definition and the published Rust differ: no record is made of a disputed script.
fn record(script: &[u8]) -> Vec<u8> {
    let (run, _) = run::agreed(script);
    let head = format!("{:05} {:05} {:05} {:05}\n", script.len(), run.output.len(), run.result, run.lines);
    [head.as_bytes(), script, &run.output].concat()
}

fn put(script: &[u8], out: &mut dyn Write) {
    out.write_all(&record(script)).expect("output");
}

pub fn write_batch(kind: Kind, count: u64, seed: u64, out: &mut dyn Write) {
    for place in 0..count {
        put(&generate::script(kind, seed + place), out);
    }
}

/// The fixed list: the examples of the folder, scripts at each limit, and generated scripts.
pub fn write_fixed(examples: &Path, out: &mut dyn Write) {
    for example in scripts_in(examples) {
        put(&example, out);
    }
    for script in shortcuts::scripts().chain(inhabitation::scripts()) {
        put(&script, out);
    }
    for family in limits::FAMILIES {
        put_limit_scripts(*family, out);
    }
    for &(topic, count) in TOPICS {
        let scripts = (0..).map(|seed| search::on_topic(&mut Rng::new(seed), topic).script);
        scripts.filter(|script| script.len() <= MOST_TOPIC_BYTES).take(count).for_each(|script| put(&script, out));
    }
    for &(kind, count, most_bytes) in FIXED {
        put_scripts_of_kind(kind, count, most_bytes, out);
    }
    for &(topic, count) in negative_topics::TOPICS {
        let scripts = (0..).map(|seed| search::on_negative_topic(&mut Rng::new(seed), topic).script);
        let chosen = |script: &Vec<u8>| script.len() <= MOST_TOPIC_BYTES && beyond_rust(script).negative_tester;
        scripts.filter(chosen).take(count).for_each(|script| put(&script, out));
    }
    for script in unequal::scripts() {
        put(&script, out);
    }
    for &(topic, count) in unequal_topics::TOPICS {
        let scripts = (0..).map(|seed| search::on_unequal_topic(&mut Rng::new(seed), topic).script);
        let chosen = |script: &Vec<u8>| script.len() <= MOST_TOPIC_BYTES && beyond_rust(script).unequal_terms;
        scripts.filter(chosen).take(count).for_each(|script| put(&script, out));
    }
}

fn scripts_in(folder: &Path) -> Vec<Vec<u8>> {
    let entries = std::fs::read_dir(folder).expect("the folder of examples");
    let mut paths: Vec<_> = entries.map(|entry| entry.expect("an entry").path()).collect();
    paths.sort();
    let scripts = paths.iter().filter(|path| path.extension().is_some_and(|extension| extension == "in"));
    scripts.map(|path| std::fs::read(path).expect("an example")).collect()
}

fn put_limit_scripts(family: limits::Family, out: &mut dyn Write) {
    let mut statistic = Statistic::default();
    let script_of = |seed| family(&mut Rng::new(seed));
    for script in (0..SEEDS_PER_FAMILY).map(script_of) {
        let met = statistic::met_by(&script);
        if met.keys().any(|name| is_limit(name) && statistic.scripts_meeting(name) == 0) {
            statistic.add(met);
            put(&script, out);
        }
    }
    if statistic.scripts == 0 {
        put(&script_of(0), out);
    }
}

fn is_limit(name: &str) -> bool {
    name.starts_with("refused 11 ") || name == "result 2" || name.ends_with(" is full")
}

fn put_scripts_of_kind(kind: Kind, count: usize, most_bytes: usize, out: &mut dyn Write) {
    let mut statistic = Statistic::default();
    for script in (0..SEEDS_PER_KIND).map(|seed| generate::script(kind, seed)) {
        if statistic.scripts == count {
            return;
        }
        let met = statistic::met_by(&script);
        let scarce = met.keys().any(|name| statistic.scripts_meeting(name) < SCARCE);
        if script.len() <= most_bytes && scarce {
            statistic.add(met);
            put(&script, out);
        }
    }
}

/// Answers the scripts of the records anew. Returns how many there are and the places, from 0, of those answered
/// otherwise.
pub fn verify(bytes: &[u8]) -> (usize, Vec<usize>) {
    let differing = records(bytes).enumerate().filter(|(_, (script, record))| !gives_again(script, record));
    (records(bytes).count(), differing.map(|(place, _)| place).collect())
}

/// The places, from 0, of the records whose script has something that the published Rust is not given: their answers
/// are the definition's.
pub fn places(bytes: &[u8], has: fn(Beyond) -> bool) -> Vec<usize> {
    let places = records(bytes).enumerate().filter(|(_, (script, _))| has(beyond_rust(script)));
    places.map(|(place, _)| place).collect()
}

/// Each record with its script before it.
fn records(mut bytes: &[u8]) -> impl Iterator<Item = (&[u8], &[u8])> {
    std::iter::from_fn(move || {
        if bytes.is_empty() {
            return None;
        }
        let (script, length) = first_record(bytes).expect("a whole record");
        let (record, rest) = bytes.split_at(length);
        bytes = rest;
        Some((script, record))
    })
}

/// Whether the script gives the record again. A wrong oracle differs from the definition, or breaks off, at a negative
/// tester or unequal terms too if its terms have other numbers: another answer in each case.
fn gives_again(script: &[u8], expected: &[u8]) -> bool {
    std::panic::catch_unwind(|| record(script)).is_ok_and(|again| again == expected)
}

/// The script of the first record, and the record's length.
fn first_record(bytes: &[u8]) -> Option<(&[u8], usize)> {
    let head_end = bytes.iter().position(|&byte| byte == b'\n')? + 1;
    let head = std::str::from_utf8(&bytes[..head_end]).ok()?;
    let mut numbers = head.split_whitespace().map(|number| number.parse::<usize>().ok());
    let (script, answers) = (numbers.next()??, numbers.next()??);
    let length = head_end + script + answers;
    (length <= bytes.len()).then(|| (&bytes[head_end..head_end + script], length))
}
