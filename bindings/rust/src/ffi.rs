//! The library's functions, as `include/robinlocker.h` declares them, behind safe ones. The only module with unsafe code.

/// What a run left besides the memory it was lent.
pub(crate) struct Left {
    pub(crate) result: u32,
    pub(crate) answered: usize,
    pub(crate) written: usize,
}

/// All was done.
const DONE: u32 = 0;

extern "C" {
    fn robinlocker_version() -> u32;
    fn robinlocker_limit(name: u32) -> u32;
    fn robinlocker_run(
        script: *const u8,
        script_bytes: usize,
        core: *mut u32,
        core_words: usize,
        theory: *mut u32,
        theory_words: usize,
        solver: *mut u32,
        solver_words: usize,
        output: *mut u8,
        output_bytes: usize,
        answered: *mut usize,
        written: *mut usize,
    ) -> u32;
    fn robinlocker_open(
        core: *mut u32,
        core_words: usize,
        theory: *mut u32,
        theory_words: usize,
        solver: *mut u32,
        solver_words: usize,
        kept: *mut u32,
        kept_words: usize,
    ) -> u32;
    fn robinlocker_line(
        line: *const u8,
        line_bytes: usize,
        core: *mut u32,
        core_words: usize,
        theory: *mut u32,
        theory_words: usize,
        solver: *mut u32,
        solver_words: usize,
        kept: *mut u32,
        kept_words: usize,
        output: *mut u8,
        output_bytes: usize,
        written: *mut usize,
    ) -> u32;
    fn robinlocker_close(
        core: *mut u32,
        core_words: usize,
        theory: *mut u32,
        theory_words: usize,
        solver: *mut u32,
        solver_words: usize,
        kept: *mut u32,
        kept_words: usize,
    );
}

pub(crate) fn version() -> u32 {
    // SAFETY: it takes nothing and asks nothing.
    unsafe { robinlocker_version() }
}

pub(crate) fn limit(name: u32) -> u32 {
    // SAFETY: any number may be asked for.
    unsafe { robinlocker_limit(name) }
}

/// Answers a whole script, on the tables given.
pub(crate) fn run(script: &[u8], [core, theory, solver]: [&mut [u32]; 3], output: &mut [u8]) -> Left {
    let mut left = Left { result: DONE, answered: 0, written: 0 };
    // SAFETY: each pointer stands with its length, and no two areas overlap, since all but the script are borrowed mutably.
    left.result = unsafe {
        robinlocker_run(
            script.as_ptr(),
            script.len(),
            core.as_mut_ptr(),
            core.len(),
            theory.as_mut_ptr(),
            theory.len(),
            solver.as_mut_ptr(),
            solver.len(),
            output.as_mut_ptr(),
            output.len(),
            &mut left.answered,
            &mut left.written,
        )
    };
    left
}

/// The four tables of an open session. Nobody else can write to them, which is the one rule of `robinlocker_line`. A copy is an open
/// session too: the library keeps nothing outside the tables and takes them at any address.
#[derive(Clone)]
pub(crate) struct Tables {
    core: Box<[u32]>,
    theory: Box<[u32]>,
    solver: Box<[u32]>,
    kept: Box<[u32]>,
}

impl Tables {
    /// Opens an empty session on new tables, the first three of the one length and the fourth of the other.
    pub(crate) fn open(table_words: usize, kept_words: usize) -> Tables {
        let table = |words| vec![0; words].into_boxed_slice();
        let (core, theory, solver) = (table(table_words), table(table_words), table(table_words));
        let mut tables = Tables { core, theory, solver, kept: table(kept_words) };
        // SAFETY: each pointer stands with its length, and the four boxes do not overlap.
        let result = unsafe {
            robinlocker_open(
                tables.core.as_mut_ptr(),
                tables.core.len(),
                tables.theory.as_mut_ptr(),
                tables.theory.len(),
                tables.solver.as_mut_ptr(),
                tables.solver.len(),
                tables.kept.as_mut_ptr(),
                tables.kept.len(),
            )
        };
        assert_eq!(result, DONE, "the library opens a session on tables of the lengths that it asks for");
        tables
    }

    /// Answers one line, given without its line feed: how many bytes are written, or the result if it is not answered.
    pub(crate) fn line(&mut self, line: &[u8], output: &mut [u8]) -> Result<usize, u32> {
        let mut written = 0;
        // SAFETY: each pointer stands with its length; the boxes, the line and the output do not overlap; `open` opened the tables, or
        // those that these are a copy of, and only this function has written to them since.
        let result = unsafe {
            robinlocker_line(
                line.as_ptr(),
                line.len(),
                self.core.as_mut_ptr(),
                self.core.len(),
                self.theory.as_mut_ptr(),
                self.theory.len(),
                self.solver.as_mut_ptr(),
                self.solver.len(),
                self.kept.as_mut_ptr(),
                self.kept.len(),
                output.as_mut_ptr(),
                output.len(),
                &mut written,
            )
        };
        if result == DONE {
            Ok(written)
        } else {
            Err(result)
        }
    }
}

impl Drop for Tables {
    fn drop(&mut self) {
        // SAFETY: each pointer stands with its length, and the four boxes do not overlap.
        unsafe {
            robinlocker_close(
                self.core.as_mut_ptr(),
                self.core.len(),
                self.theory.as_mut_ptr(),
                self.theory.len(),
                self.solver.as_mut_ptr(),
                self.solver.len(),
                self.kept.as_mut_ptr(),
                self.kept.len(),
            )
        }
    }
}
