//! Stands in for `shinri_num`. A script has no numerals, so nothing here is ever called.

use std::ops::{AddAssign, Mul, MulAssign};

const NO_NUMERALS: &str = "a script has no numerals";

#[derive(Clone, PartialEq, Eq, Debug)]
pub struct Integer;

impl Integer {
    pub fn one() -> Integer {
        unreachable!("{NO_NUMERALS}")
    }
    pub fn div_rem(&self, _by: &Integer) -> (Integer, Integer) {
        unreachable!("{NO_NUMERALS}")
    }
    pub fn is_negative(&self) -> bool {
        unreachable!("{NO_NUMERALS}")
    }
}

impl From<i64> for Integer {
    fn from(_n: i64) -> Integer {
        unreachable!("{NO_NUMERALS}")
    }
}

impl From<i128> for Integer {
    fn from(_n: i128) -> Integer {
        unreachable!("{NO_NUMERALS}")
    }
}

impl MulAssign for Integer {
    fn mul_assign(&mut self, _by: Integer) {
        unreachable!("{NO_NUMERALS}")
    }
}

impl AddAssign for Integer {
    fn add_assign(&mut self, _by: Integer) {
        unreachable!("{NO_NUMERALS}")
    }
}

#[derive(Clone, PartialEq, Eq, Debug)]
pub struct Rational;

impl Rational {
    pub fn new(_numerator: Integer, _denominator: Integer) -> Rational {
        unreachable!("{NO_NUMERALS}")
    }
}

impl Mul for Rational {
    type Output = Rational;
    fn mul(self, _by: Rational) -> Rational {
        unreachable!("{NO_NUMERALS}")
    }
}
