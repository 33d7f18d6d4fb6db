//! A script for each kind and seed.

use crate::damage;
use crate::limits;
use crate::negative_topics;
use crate::reacting;
use crate::rng::Rng;
use crate::search::{self, Size};
use crate::unequal_topics;

#[derive(Clone, Copy, Debug)]
pub enum Kind {
    /// Like a search core; no line is refused.
    Search,
    /// A search core that reacts to each answer; no line is refused.
    Reacting,
    /// Like a search core, with refused lines between.
    Refused,
    Limits,
    Damaged,
    /// About negative testers, which the other kinds seldom have; no line is refused.
    Negative,
    /// About unequal terms, which the other kinds seldom have; no line is refused.
    Unequal,
    Any,
    /// A search that goes on until a limit is near; for the benchmark.
    Long,
    /// Random steps until a limit is near, mostly in conflict; for the benchmark.
    Stuck,
}

impl Kind {
    pub const ALL: [Kind; 8] = [
        Kind::Search,
        Kind::Reacting,
        Kind::Refused,
        Kind::Limits,
        Kind::Damaged,
        Kind::Negative,
        Kind::Unequal,
        Kind::Any,
    ];

    pub fn named(name: &str) -> Option<Kind> {
        match name {
            "search" => Some(Kind::Search),
            "reacting" => Some(Kind::Reacting),
            "refused" => Some(Kind::Refused),
            "limits" => Some(Kind::Limits),
            "damaged" => Some(Kind::Damaged),
            "negative" => Some(Kind::Negative),
            "unequal" => Some(Kind::Unequal),
            "any" => Some(Kind::Any),
            "long" => Some(Kind::Long),
            "stuck" => Some(Kind::Stuck),
            _ => None,
        }
    }
}

pub fn script(kind: Kind, seed: u64) -> Vec<u8> {
    let mut rng = Rng::new(seed);
    script_of(kind, &mut rng)
}

fn script_of(kind: Kind, rng: &mut Rng) -> Vec<u8> {
    match kind {
        Kind::Search => like_a_search(rng, 0),
        Kind::Reacting => reacting::reacting(rng).script,
        Kind::Long => search::long_search(rng).script,
        Kind::Stuck => search::stuck_search(rng).script,
        Kind::Refused => like_a_search(rng, 20),
        Kind::Limits => limits::limits(rng),
        Kind::Negative => negative_topics::negative(rng),
        Kind::Unequal => unequal_topics::unequal(rng),
        Kind::Damaged => {
            let kind = match rng.below(100) {
                0..=37 => Kind::Search,
                38..=56 => Kind::Reacting,
                57..=75 => Kind::Refused,
                76..=94 => Kind::Limits,
                _ => Kind::Unequal,
            };
            let script = script_of(kind, rng);
            damage::damage(rng, &script)
        }
        Kind::Any => {
            let kind = match rng.below(100) {
                0..=39 => Kind::Search,
                40..=49 => Kind::Reacting,
                50..=64 => Kind::Refused,
                65..=84 => Kind::Limits,
                _ => Kind::Damaged,
            };
            script_of(kind, rng)
        }
    }
}

fn like_a_search(rng: &mut Rng, refused_percent: usize) -> Vec<u8> {
    let size = match rng.below(10) {
        0..=3 => Size::Small,
        4..=8 => Size::Middle,
        _ => Size::Large,
    };
    search::search(rng, size, refused_percent).script
}
