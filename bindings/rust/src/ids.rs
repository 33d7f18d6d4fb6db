//! Variables and literals of the search.

#![forbid(unsafe_code)]

use std::fmt;
use std::ops::Not;

/// A variable of the search, by its number. A session has variables below [`Limits::vars`](crate::Limits::vars).
#[derive(Clone, Copy, PartialEq, Eq, PartialOrd, Ord, Hash, Debug)]
pub struct Var(pub u16);

/// A variable with a sign. Its number is twice the variable's, plus 1 if it is negative.
#[derive(Clone, Copy, PartialEq, Eq, PartialOrd, Ord, Hash)]
pub struct Lit {
    number: u32,
}

impl Var {
    /// The literal that says that the variable is true.
    pub const fn positive(self) -> Lit {
        Lit { number: 2 * self.0 as u32 }
    }

    /// The literal that says that the variable is false.
    pub const fn negative(self) -> Lit {
        Lit { number: 2 * self.0 as u32 + 1 }
    }
}

impl Lit {
    /// The literal of that number; none if its variable would be past 65,535.
    pub const fn from_number(number: u32) -> Option<Lit> {
        if number / 2 <= u16::MAX as u32 {
            Some(Lit { number })
        } else {
            None
        }
    }

    /// The number by which lines and answers name it.
    pub const fn number(self) -> u32 {
        self.number
    }

    /// Its variable.
    pub const fn var(self) -> Var {
        // No bits are lost: `from_number` and the literals of a variable keep to this.
        Var((self.number / 2) as u16)
    }

    /// Does it say that its variable is true?
    pub const fn is_positive(self) -> bool {
        self.number & 1 == 0
    }

    /// The literal of the same variable and the other sign; `!lit` is the same.
    pub const fn negate(self) -> Lit {
        Lit { number: self.number ^ 1 }
    }
}

impl Not for Lit {
    type Output = Lit;

    fn not(self) -> Lit {
        self.negate()
    }
}

impl fmt::Display for Var {
    fn fmt(&self, f: &mut fmt::Formatter<'_>) -> fmt::Result {
        self.0.fmt(f)
    }
}

impl fmt::Display for Lit {
    fn fmt(&self, f: &mut fmt::Formatter<'_>) -> fmt::Result {
        self.number.fmt(f)
    }
}

impl fmt::Debug for Lit {
    fn fmt(&self, f: &mut fmt::Formatter<'_>) -> fmt::Result {
        write!(f, "Lit({})", self.number)
    }
}

#[cfg(test)]
mod tests {
    use super::*;

    #[test]
    fn a_literal_is_its_variable_and_sign() {
        for number in 0..=u16::MAX {
            let (yes, no) = (Var(number).positive(), Var(number).negative());
            assert_eq!((yes.number(), no.number()), (2 * u32::from(number), 2 * u32::from(number) + 1));
            assert_eq!((yes.var(), no.var()), (Var(number), Var(number)));
            assert_eq!((yes.is_positive(), no.is_positive()), (true, false));
            assert_eq!((yes.negate(), !no), (no, yes));
            assert_eq!(Lit::from_number(no.number()), Some(no));
        }
    }

    #[test]
    fn a_number_past_the_last_variable_is_no_literal() {
        assert_eq!(Lit::from_number(131_071), Some(Var(65_535).negative()));
        assert_eq!(Lit::from_number(131_072), None);
        assert_eq!(Lit::from_number(u32::MAX), None);
    }
}
