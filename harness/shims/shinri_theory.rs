//! The root of `shinri_theory`, which the published source lacks: its modules as published, the map from terms to
//! nodes and a model that stays empty.

#[path = "../target/crates/shinri-theory/src/atom.rs"]
pub mod atom;
#[path = "../target/crates/shinri-theory/src/eq_engine.rs"]
pub mod eq_engine;
#[path = "../target/crates/shinri-theory/src/solver_trait.rs"]
pub mod solver_trait;
#[path = "../target/crates/shinri-theory/src/types.rs"]
pub mod types;

// `eq_engine.rs` names its map `shinri_core_map::Map`. The map holds this crate's node ids, so it has to stand here.
extern crate self as shinri_core_map;

pub use atom::AtomRegistry;
pub use eq_engine::EqualityEngine;
pub use model::ModelBuilder;
pub use solver_trait::{TCheck, TheoryCtx, TheorySolver};
pub use types::{ENodeId, Explainer};

use shinri_core::TermId;

/// The node of each term that has one.
#[derive(Default)]
pub struct Map(Vec<Option<ENodeId>>);

impl Map {
    pub fn get(&self, t: TermId) -> Option<ENodeId> {
        self.0.get(t.index()).copied().flatten()
    }
    pub fn insert(&mut self, t: TermId, node: ENodeId) {
        if self.0.len() <= t.index() {
            self.0.resize(t.index() + 1, None);
        }
        self.0[t.index()] = Some(node);
    }
}

pub mod model {
    use crate::types::ModelVal;
    use shinri_core::{Rational, TermId};

    /// A session never asks for a model.
    pub struct ModelBuilder;

    impl ModelBuilder {
        pub fn get(&self, _t: TermId) -> Option<&ModelVal> {
            None
        }
        pub fn assign(&mut self, _t: TermId, _value: ModelVal) {}
    }

    pub fn format_rational(_value: &Rational) -> String {
        String::new()
    }
    pub fn format_modelval(_value: &ModelVal) -> String {
        String::new()
    }
}
