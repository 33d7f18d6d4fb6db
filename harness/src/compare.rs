//! Runs a program on generated scripts and holds what it writes to the right run.

use crate::generate::{self, Kind};
use crate::run::{self, Right, Run, Source};
use std::io::Write;
use std::process::{Command, Output, Stdio};

/// Takes the scripts in turn from all kinds. Prints what was compared, or returns the first script that differs.
pub fn compare(program: &str, count: u64, seed: u64) -> Result<(), Vec<u8>> {
    let (mut lines, mut bytes, mut stopped, mut defined) = (0, 0, 0, 0);
    for place in 0..count {
        let kind = Kind::ALL[place as usize % Kind::ALL.len()];
        let script = generate::script(kind, seed + place);
        let Right { run, source, agreed } = run::right(&script, run::MOST_OUTPUT);
        if !agreed || !agrees(&run, &output_of(program, &script)) {
            return Err(script);
        }
        lines += run.lines;
        bytes += run.output.len();
        stopped += u64::from(run.result != 0);
        defined += u64::from(source == Source::Definition);
    }
    println!("{count} scripts, {lines} lines, {bytes} bytes, {stopped} runs with a result other than 0: no difference");
    println!("{} held to the published Rust, {defined} to the definition alone", count - defined);
    Ok(())
}

/// The program reads a script to its end, or until it is too long, before it writes.
fn output_of(program: &str, script: &[u8]) -> Output {
    let pipes = Command::new(program).stdin(Stdio::piped()).stdout(Stdio::piped()).stderr(Stdio::piped()).spawn();
    let mut child = pipes.expect("the program");
    let written = child.stdin.take().expect("its standard input").write_all(script);
    assert!(written.is_ok() || script.len() > run::MOST_SCRIPT, "the program read too little");
    child.wait_with_output().expect("what the program wrote")
}

/// Standard error is empty after a run to the end; else it has the result first and the counts last.
fn agrees(run: &Run, output: &Output) -> bool {
    let said = String::from_utf8_lossy(&output.stderr);
    let counts = format!("; {} lines answered, {} bytes written\n", run.lines, run.output.len());
    let ended = match run.result {
        0 => said.is_empty(),
        result => said.starts_with(&format!("robinlocker: {result}: ")) && said.ends_with(&counts),
    };
    ended && output.stdout == run.output && output.status.success()
}
