//! The topics: plans that make one kind of answer hang on one thing each. Chance alone brings them too seldom.

use crate::clash_topics::{assert_conflicts, constructor_clashes, records_and_levels, tester_clashes};
use crate::congruence_topics::pairs;
use crate::mark_topics::{
    collapse, collapse_of_equals, exhaustiveness, foreign_selectors, handed_out, injectivity, injectivity_of_three,
    instantiation, tester_lemmas, wandering,
};
use crate::plans::Plan;
use crate::ring_topics::{rings, rings_behind_the_fence, rings_of_crowds, rings_reached};

/// Each topic with the number of its scripts in the fixed list.
pub const TOPICS: &[(Plan, usize)] = &[
    (rings, 36),
    (rings_reached, 24),
    (rings_of_crowds, 36),
    (rings_behind_the_fence, 10),
    (pairs, 28),
    (constructor_clashes, 30),
    (tester_clashes, 28),
    (assert_conflicts, 14),
    (records_and_levels, 28),
    (injectivity, 12),
    (injectivity_of_three, 12),
    (collapse, 24),
    (collapse_of_equals, 10),
    (foreign_selectors, 10),
    (tester_lemmas, 24),
    (instantiation, 20),
    (handed_out, 12),
    (exhaustiveness, 12),
    (wandering, 14),
];
