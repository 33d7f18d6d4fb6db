//! A small search core: looks depth first for a way to meet the rules of a sheet, and prints every line that it sends.
//!
//! ```text
//! cargo run --example search -- examples/sheets/acknowledged.sheet
//! ```
//!
//! A sheet is a text. Empty lines and lines that begin with `#` say nothing; each other line is one of these, then blanks and words for
//! the reader, which the trace repeats:
//!
//! - a line of the script that declares, makes a term or registers a variable. The words of a `term` or `eq` line name the term;
//! - `clause=L,L..`: a rule, which says that at least one of these literals holds.
//!
//! In the trace each line sent stands with its answer and a few words, indented by level; a row of `[..]` is a clause, of which one holds.
//! `passes` means what `sat=1` means: the datatypes have no objection to the branch, which is no proof that the whole sheet can be met.
//! Of rules over other atoms than equations and testers the search only knows that an atom is true or false.
//!
//! The status is 0 if the sheet passes, 1 if it does not, 2 if there is no verdict, 65 if the sheet cannot be read.

#![forbid(unsafe_code)]

mod clauses;
mod names;
mod search;
mod sheet;

use search::Search;
pub use search::Verdict;
use sheet::Sheet;
use std::process::ExitCode;

fn main() -> ExitCode {
    let Some(file) = std::env::args().nth(1) else {
        eprintln!("usage: search SHEET");
        return ExitCode::from(64);
    };
    let text = std::fs::read_to_string(&file).map_err(|error| error.to_string());
    match text.and_then(|text| examine(&text, &mut |line| println!("{line}"))) {
        Ok(Verdict::Passes) => ExitCode::SUCCESS,
        Ok(Verdict::NoBranch) => ExitCode::from(1),
        Ok(Verdict::Unknown) => ExitCode::from(2),
        Err(why) => {
            eprintln!("search: {file}: {why}");
            ExitCode::from(65)
        }
    }
}

/// Reads a sheet and searches; each line of the trace is handed to `print`.
pub fn examine(text: &str, print: &mut dyn FnMut(&str)) -> Result<Verdict, String> {
    let sheet = Sheet::read(text)?;
    let mut search = Search::over(&sheet, print)?;
    Ok(search.run())
}
