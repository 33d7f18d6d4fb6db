//! The definition of the proved crates (`crates/*/specs`) read a second time, in plain Rust: the same names in the same
//! order, lists where it has lists. It answers the scripts with a negative tester or with unequal terms, which the
//! published Rust is not given; on every other script it is held to the published Rust, byte for byte.

mod atom;
mod context;
mod eq_engine;
mod records;
mod ring;
mod rules;
mod session;
mod state;

pub use context::Role;
pub use session::{Beyond, Session};
