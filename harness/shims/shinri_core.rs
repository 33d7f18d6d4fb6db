//! The root of `shinri_core`, which the published source lacks: its modules as published, an error type and a
//! printing module.

#[path = "../target/crates/shinri-core/src/context.rs"]
pub mod context;
#[path = "../target/crates/shinri-core/src/ids.rs"]
pub mod ids;
#[path = "../target/crates/shinri-core/src/proof.rs"]
pub mod proof;
#[path = "../target/crates/shinri-core/src/sort.rs"]
pub mod sort;
#[path = "../target/crates/shinri-core/src/symbol.rs"]
pub mod symbol;
#[path = "../target/crates/shinri-core/src/term.rs"]
pub mod term;
#[path = "../target/crates/shinri-core/src/undo.rs"]
pub mod undo;

pub use context::{Context, DtRole};
pub use ids::{Lit, SortId, SymbolId, TermId, Var};
pub use proof::TheoryJust;
pub use shinri_num::{Integer, Rational};
pub use sort::SortNode;
pub use term::{BuiltinOp, Op, RoundingMode, TermNode};
pub use undo::UndoLog;

pub mod error {
    use crate::ids::SortId;

    #[derive(Debug)]
    pub enum SortError {
        UndeclaredSymbol,
        Arity { expected: usize, found: usize },
        Mismatch { expected: SortId, found: SortId },
        NotApplicable,
        NotBitVec,
        BvIndex,
        NotFloat,
        NotRoundingMode,
        FpIndex,
    }
}

pub mod smtlib_print {
    use std::borrow::Cow;

    /// Only `model` prints symbols, and a session never asks for a model.
    pub fn quote_symbol(name: &str) -> Cow<'_, str> {
        Cow::Borrowed(name)
    }
}
