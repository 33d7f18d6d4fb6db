//! The proved library, called in this process.

pub const TABLE_WORDS: usize = 16_384;
const KEPT_WORDS: usize = 66;

/// A run of the proved library; the rest is in the memory that was lent.
#[derive(Clone, Copy, PartialEq, Eq, Debug)]
pub struct Ran {
    pub result: u32,
    pub lines: usize,
    pub bytes: usize,
}

/// What a run is lent besides the script.
pub struct Lent {
    pub core: Vec<u32>,
    pub theory: Vec<u32>,
    pub solver: Vec<u32>,
    pub output: Vec<u8>,
}

impl Lent {
    /// Work tables of the least length, and room for `output` bytes.
    pub fn new(output: usize) -> Lent {
        let table = || vec![0; TABLE_WORDS];
        Lent { core: table(), theory: table(), solver: table(), output: vec![0; output] }
    }

    pub fn tables_are_zero(&self) -> bool {
        [&self.core, &self.theory, &self.solver].into_iter().all(|table| table.iter().all(|&word| word == 0))
    }
}

/// How a script is sent to the library.
#[derive(Clone, Copy, PartialEq, Eq, Debug)]
pub enum Way {
    Whole,
    LineByLine,
}

// As include/robinlocker.h declares them.
extern "C" {
    fn robinlocker_run(
        script: *const u8,
        script_bytes: usize,
        core: *mut u32,
        core_words: usize,
        theory: *mut u32,
        theory_words: usize,
        solver: *mut u32,
        solver_words: usize,
        output: *mut u8,
        output_bytes: usize,
        lines: &mut usize,
        bytes: &mut usize,
    ) -> u32;
    fn robinlocker_open(
        core: *mut u32,
        core_words: usize,
        theory: *mut u32,
        theory_words: usize,
        solver: *mut u32,
        solver_words: usize,
        kept: *mut u32,
        kept_words: usize,
    ) -> u32;
    fn robinlocker_line(
        line: *const u8,
        line_bytes: usize,
        core: *mut u32,
        core_words: usize,
        theory: *mut u32,
        theory_words: usize,
        solver: *mut u32,
        solver_words: usize,
        kept: *mut u32,
        kept_words: usize,
        output: *mut u8,
        output_bytes: usize,
        written: &mut usize,
    ) -> u32;
    fn robinlocker_close(
        core: *mut u32,
        core_words: usize,
        theory: *mut u32,
        theory_words: usize,
        solver: *mut u32,
        solver_words: usize,
        kept: *mut u32,
        kept_words: usize,
    );
}

pub fn answer(way: Way, script: &[u8], lent: &mut Lent) -> Ran {
    match way {
        Way::Whole => run(script, lent),
        Way::LineByLine => run_by_lines(script, lent),
    }
}

pub fn run(script: &[u8], lent: &mut Lent) -> Ran {
    let mut ran = Ran { result: 0, lines: 0, bytes: 0 };
    // SAFETY: each pointer stands with its length, and nothing lent overlaps another; the function asks nothing else.
    ran.result = unsafe {
        robinlocker_run(
            script.as_ptr(),
            script.len(),
            lent.core.as_mut_ptr(),
            lent.core.len(),
            lent.theory.as_mut_ptr(),
            lent.theory.len(),
            lent.solver.as_mut_ptr(),
            lent.solver.len(),
            lent.output.as_mut_ptr(),
            lent.output.len(),
            &mut ran.lines,
            &mut ran.bytes,
        )
    };
    ran
}

/// The same by a session kept open: opened on what is lent, sent one line a call into the output that is left, closed.
fn run_by_lines(script: &[u8], lent: &mut Lent) -> Ran {
    let mut kept = [u32::MAX; KEPT_WORDS];
    let mut ran = Ran { result: open(lent, &mut kept), lines: 0, bytes: 0 };
    if ran.result != 0 {
        return ran;
    }
    for line in script.split_inclusive(|&byte| byte == b'\n') {
        let (result, bytes) = send(line.strip_suffix(b"\n").unwrap_or(line), lent, &mut kept, ran.bytes);
        if result != 0 {
            ran.result = result;
            break;
        }
        ran.lines += 1;
        ran.bytes += bytes;
    }
    close(lent, &mut kept);
    ran
}

fn open(lent: &mut Lent, kept: &mut [u32]) -> u32 {
    // SAFETY: each pointer stands with its length, and nothing lent overlaps another; the function asks nothing else.
    unsafe {
        robinlocker_open(
            lent.core.as_mut_ptr(),
            lent.core.len(),
            lent.theory.as_mut_ptr(),
            lent.theory.len(),
            lent.solver.as_mut_ptr(),
            lent.solver.len(),
            kept.as_mut_ptr(),
            kept.len(),
        )
    }
}

/// The result, and the bytes written behind those before.
fn send(line: &[u8], lent: &mut Lent, kept: &mut [u32], before: usize) -> (u32, usize) {
    let output = &mut lent.output[before..];
    let mut written = 0;
    // SAFETY: as in `open`; and the tables are as `open` or the last `send` left them.
    let result = unsafe {
        robinlocker_line(
            line.as_ptr(),
            line.len(),
            lent.core.as_mut_ptr(),
            lent.core.len(),
            lent.theory.as_mut_ptr(),
            lent.theory.len(),
            lent.solver.as_mut_ptr(),
            lent.solver.len(),
            kept.as_mut_ptr(),
            kept.len(),
            output.as_mut_ptr(),
            output.len(),
            &mut written,
        )
    };
    (result, written)
}

fn close(lent: &mut Lent, kept: &mut [u32]) {
    // SAFETY: as in `open`.
    unsafe {
        robinlocker_close(
            lent.core.as_mut_ptr(),
            lent.core.len(),
            lent.theory.as_mut_ptr(),
            lent.theory.len(),
            lent.solver.as_mut_ptr(),
            lent.solver.len(),
            kept.as_mut_ptr(),
            kept.len(),
        )
    }
}
