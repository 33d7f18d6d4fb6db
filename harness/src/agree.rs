//! Holds the definition, as `definition.rs` reads it, to the published Rust.

use crate::generate::{self, Kind};
use crate::run::{self, Source, MOST_OUTPUT};

/// Answers by both the scripts that the published Rust is given. Prints how many those are, or returns the first script
/// that differs. Panics if they are too few.
pub fn agree(kind: Kind, count: u64, seed: u64) -> Result<(), Vec<u8>> {
    let (mut compared, mut lines) = (0, 0);
    for script in (0..count).map(|place| generate::script(kind, seed + place)) {
        let right = run::right(&script, MOST_OUTPUT);
        if !right.agreed {
            return Err(script);
        }
        if right.source == Source::Rust {
            compared += 1;
            lines += right.run.lines;
        }
    }
    assert!(compared >= least(kind, count), "{kind:?}: the published Rust is given only {compared} of {count} scripts");
    println!("{kind:?}: the published Rust is given {compared} of {count} scripts; {lines} lines, no difference");
    Ok(())
}

/// So many scripts have to be compared: were a negative tester or unequal terms seen in every script, nothing would be
/// held to the published Rust. The kinds `negative` and `unequal` are about them; of any other kind more than eight scripts
/// in ten have none.
fn least(kind: Kind, count: u64) -> u64 {
    match kind {
        Kind::Negative | Kind::Unequal => 0,
        _ => count.div_ceil(2),
    }
}
