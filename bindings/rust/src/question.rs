//! The questions that a line can fail.

#![forbid(unsafe_code)]

use std::fmt;

/// The first question that a refused line fails. They are asked in the order of their numbers, but 13 right after 8.
#[derive(Clone, Copy, PartialEq, Eq, PartialOrd, Ord, Hash, Debug)]
pub enum Question {
    /// 3: does it read: a known key, the right count of numbers, each in its range?
    Reads = 3,
    /// 4: do declarations come before `close`, all else after?
    Order = 4,
    /// 5: does each named sort, symbol, term and variable exist, and is the V of `var` below 1,024?
    Exists = 5,
    /// 6: do sorts and argument counts agree?
    Sorts = 6,
    /// 7: `var`: is the variable unregistered?
    Unregistered = 7,
    /// 8: `equate`: is the literal positive and its atom an equation?
    PositiveEquation = 8,
    /// 9: `cong`: the same operation, and each argument pair equal now?
    Congruent = 9,
    /// 10: `close`: is each datatype inhabited?
    Inhabited = 10,
    /// 11: does the result fit the limits?
    Fits = 11,
    /// 13: `differ`: is the literal negative and its atom an equation?
    NegativeEquation = 13,
}

impl Question {
    /// All of them, by number.
    pub const ALL: [Question; 10] = [
        Question::Reads,
        Question::Order,
        Question::Exists,
        Question::Sorts,
        Question::Unregistered,
        Question::PositiveEquation,
        Question::Congruent,
        Question::Inhabited,
        Question::Fits,
        Question::NegativeEquation,
    ];

    /// The question of that number, if a line can fail it.
    pub fn from_number(number: u32) -> Option<Question> {
        Question::ALL.into_iter().find(|question| question.number() == number)
    }

    /// Its number, as in `refused=3`.
    pub const fn number(self) -> u32 {
        self as u32
    }

    /// The question in the words of README.md.
    pub const fn words(self) -> &'static str {
        match self {
            Question::Reads => "does it read: a known key, the right count of numbers, each in its range?",
            Question::Order => "do declarations come before `close`, all else after?",
            Question::Exists => {
                "does each named sort, symbol, term and variable exist, and is the V of `var` below 1,024?"
            }
            Question::Sorts => "do sorts and argument counts agree?",
            Question::Unregistered => "`var`: is the variable unregistered?",
            Question::PositiveEquation => "`equate`: is the literal positive and its atom an equation?",
            Question::Congruent => "`cong`: the same operation, and each argument pair equal now?",
            Question::Inhabited => {
                "`close`: is each datatype inhabited, that is, has it a constructor with only fields of other sorts or of datatypes \
                 found inhabited before it, starting from none?"
            }
            Question::Fits => "does the result fit the limits?",
            Question::NegativeEquation => "`differ`, asked after 8: is the literal negative and its atom an equation?",
        }
    }
}

impl fmt::Display for Question {
    fn fmt(&self, f: &mut fmt::Formatter<'_>) -> fmt::Result {
        f.pad(self.words())
    }
}

#[cfg(test)]
mod tests {
    use super::*;

    #[test]
    fn the_words_are_those_of_the_readme() {
        let readme = include_str!("../../../README.md");
        for question in Question::ALL {
            let row = format!("| {} | {question} |", question.number());
            assert!(readme.lines().any(|line| line == row), "README.md has no such row: {row}");
        }
    }

    #[test]
    fn numbers_and_questions_belong_together() {
        let numbers: Vec<u32> = Question::ALL.iter().map(|question| question.number()).collect();
        assert_eq!(numbers, [3, 4, 5, 6, 7, 8, 9, 10, 11, 13]);
        for number in 0..100 {
            let found = Question::from_number(number).map(Question::number);
            assert_eq!(found, numbers.contains(&number).then_some(number));
        }
    }
}
