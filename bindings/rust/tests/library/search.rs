//! The worked example on the two sample sheets and on small ones.

#[path = "../../examples/search/main.rs"]
#[allow(dead_code)]
mod example;

use crate::any_lines::Numbers;
use crate::scripts::read;
use example::{examine, Verdict};

/// The verdict on a sheet and the trace.
fn search(sheet: &str) -> (Result<Verdict, String>, String) {
    let mut trace = String::new();
    let verdict = examine(sheet, &mut |line| {
        trace.push_str(line);
        trace.push('\n');
    });
    (verdict, trace)
}

fn sample(name: &str) -> String {
    String::from_utf8(read(&format!("bindings/rust/examples/sheets/{name}"))).expect("a sheet is text")
}

#[test]
fn a_sample_sheet_passes() {
    assert_eq!(search(&sample("acknowledged.sheet")), (Ok(Verdict::Passes), sample("acknowledged.trace")));
}

#[test]
fn a_sample_sheet_does_not_pass() {
    assert_eq!(search(&sample("two-trains.sheet")), (Ok(Verdict::NoBranch), sample("two-trains.trace")));
}

/// Numbers: symbols 0 zero, 2 successor, 4 predecessor, 5 and 6 constants, 7 a function to a sort of which nothing is known.
const NUMBERS: &str = "sort=d\nsort=u\nctor=1\nctor=1,1\nfun=1\nfun=1\nfun=2,1\nclose=1\n";

fn verdict(lines: &str) -> Result<Verdict, String> {
    search(&format!("{NUMBERS}{lines}")).0
}

#[test]
fn equal_arguments_give_equal_results() {
    let terms = "term=5\nterm=6\nterm=7,0\nterm=7,1\neq=0,1\neq=2,3\nvar=0,4\nvar=1,5\n";
    assert_eq!(verdict(&format!("{terms}clause=0\nclause=3\n")), Ok(Verdict::NoBranch));
    assert_eq!(verdict(&format!("{terms}clause=0\nclause=2\n")), Ok(Verdict::Passes));
    assert_eq!(verdict(&format!("{terms}clause=0,1\nclause=3\n")), Ok(Verdict::Passes));
}

#[test]
fn no_number_is_its_own_successor() {
    let terms = "term=5\nterm=2,0\neq=0,1\nvar=0,2\n";
    assert_eq!(verdict(&format!("{terms}clause=0\n")), Ok(Verdict::NoBranch));
    assert_eq!(verdict(&format!("{terms}clause=1\n")), Ok(Verdict::Passes));
}

#[test]
fn a_number_is_zero_or_a_successor_and_not_both() {
    let terms = "term=5\nterm=1,0\nterm=3,0\nvar=0,1\nvar=1,2\n";
    assert_eq!(verdict(&format!("{terms}clause=1\nclause=3\n")), Ok(Verdict::NoBranch));
    assert_eq!(verdict(&format!("{terms}clause=0\nclause=2\n")), Ok(Verdict::NoBranch));
    assert_eq!(verdict(&format!("{terms}clause=2\n")), Ok(Verdict::Passes));
}

/// The kinds of message; trains are numbers.
#[derive(Clone, Copy, PartialEq)]
enum Message {
    Advance(u32),
    Acknowledgement,
    Empty,
}

/// The lines of the sample sheets without their rules, and variables for m's kinds too.
fn panel() -> String {
    let sheet = sample("acknowledged.sheet");
    let lines: Vec<&str> = sheet.lines().filter(|line| !line.starts_with("clause=")).collect();
    lines.join("\n") + "\nvar=4,10\nvar=5,11\nvar=6,12\n"
}

/// The truth of the panel's seven variables, for every train A and B and every message m.
fn readings() -> Vec<[bool; 7]> {
    let trains = [(0, 0), (0, 1)];
    let messages =
        [Message::Advance(0), Message::Advance(1), Message::Advance(2), Message::Acknowledgement, Message::Empty];
    let reading = |(a, b), m| {
        let (is_acknowledgement, is_empty) = (m == Message::Acknowledgement, m == Message::Empty);
        let is_advance = !is_acknowledgement && !is_empty;
        let (is_advance_a, is_advance_b) = (m == Message::Advance(a), m == Message::Advance(b));
        [is_advance_a, is_advance_b, is_acknowledgement, a == b, is_advance, is_acknowledgement, is_empty]
    };
    trains.iter().flat_map(|&pair| messages.map(|message| reading(pair, message))).collect()
}

/// Up to five rules of up to three literals.
fn rules(numbers: &mut Numbers) -> Vec<Vec<u32>> {
    let mut rule = || (0..=numbers.below(3)).map(|_| numbers.below(14)).collect();
    (0..5).map(|_| rule()).collect()
}

fn hold(rules: &[Vec<u32>], reading: &[bool; 7]) -> bool {
    let is_true = |literal: &u32| reading[*literal as usize / 2] == (literal & 1 == 0);
    rules.iter().all(|rule| rule.iter().any(is_true))
}

#[test]
fn rules_pass_if_some_reading_meets_them() {
    let (panel, readings) = (panel(), readings());
    let (mut numbers, mut passed) = (Numbers(4), 0);
    for _ in 0..400 {
        let rules = rules(&mut numbers);
        let clause =
            |rule: &Vec<u32>| format!("clause={}\n", rule.iter().map(u32::to_string).collect::<Vec<_>>().join(","));
        let sheet = panel.clone() + &rules.iter().map(clause).collect::<String>();
        let passes = readings.iter().any(|reading| hold(&rules, reading));
        let expected = if passes { Verdict::Passes } else { Verdict::NoBranch };
        assert_eq!(search(&sheet).0, Ok(expected), "{rules:?}");
        passed += usize::from(passes);
    }
    assert!((100..300).contains(&passed), "{passed}");
}

#[test]
fn a_sheet_that_cannot_be_used_is_turned_down() {
    for (lines, why) in [
        ("hello\n", "line 9: this is no line of a script and no clause"),
        ("clause=\n", "line 9: a clause has literals parted by commas"),
        ("assert=0\n", "line 9: a sheet declares, makes terms and registers variables; the search sends the rest"),
        ("clause=1\n", "a clause names variable 0, which is not registered"),
        ("term=99\n", "term=99 is refused: does each named sort, symbol, term and variable exist, and is the V of `var` below 1,024?"),
    ] {
        assert_eq!(verdict(lines), Err(why.to_string()));
    }
}
