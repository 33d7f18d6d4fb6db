//! Which other datatypes a datatype needs before it has a first tree: how many rounds question 10 takes.

use crate::rng::Rng;

#[derive(Clone, Copy, PartialEq, Eq)]
pub enum Needs {
    /// Each datatype has a constructor with no datatype field.
    Nothing,
    /// Each but the first needs the one before it.
    Chain,
    /// The same, and the first has a constructor over the last too: all are mutually recursive.
    Ring,
    /// The second is a node over a list, which is the first, of nodes; what follows is a chain.
    Lists,
    /// Each but the first needs one or two of those before it.
    Several,
}

impl Needs {
    pub fn any(rng: &mut Rng) -> Needs {
        match rng.below(10) {
            0..=3 => Needs::Nothing,
            4..=5 => Needs::Chain,
            6..=7 => Needs::Ring,
            8 => Needs::Lists,
            _ => Needs::Several,
        }
    }

    /// How many datatypes there are; `plain` if they need nothing.
    pub fn datatypes(self, rng: &mut Rng, plain: usize) -> usize {
        match self {
            Needs::Nothing => plain,
            Needs::Chain => rng.between(2, 6),
            Needs::Ring if rng.chance(70) => 5,
            Needs::Ring | Needs::Several => rng.between(2, 5),
            Needs::Lists => rng.between(2, 3),
        }
    }

    /// The datatypes from the first to the last: as declared, against that order, or mixed.
    pub fn order(self, rng: &mut Rng, mut datatypes: Vec<usize>) -> Vec<usize> {
        if self != Needs::Nothing {
            match rng.below(3) {
                0 => {}
                1 => datatypes.reverse(),
                _ => rng.shuffle(&mut datatypes),
            }
        }
        datatypes
    }

    /// The datatype fields of the constructors that make the datatype at a place of the order inhabited, and of those
    /// that close a ring.
    pub fn datatype_fields(self, rng: &mut Rng, order: &[usize], place: usize) -> Vec<Vec<usize>> {
        match (self, place) {
            (Needs::Ring, 0) => vec![Vec::new(), vec![order[order.len() - 1]]],
            (Needs::Lists, 0) => vec![Vec::new(), vec![order[1], order[0]]],
            (_, 0) => vec![Vec::new()],
            (Needs::Several, _) => (0..rng.between(1, 2)).map(|_| some_before(rng, &order[..place])).collect(),
            _ => vec![vec![order[place - 1]]],
        }
    }
}

fn some_before(rng: &mut Rng, before: &[usize]) -> Vec<usize> {
    (0..rng.between(1, 2)).map(|_| before[rng.below(before.len())]).collect()
}
