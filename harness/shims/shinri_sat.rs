//! Stands in for `shinri_sat`: the effort of a check.

#[derive(Clone, Copy, PartialEq, Eq, Debug)]
pub enum Effort {
    Standard,
    Full,
}
