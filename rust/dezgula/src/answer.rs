//! What a call answers, and refusals as errors.
#![forbid(unsafe_code)]

use crate::calls;
use std::fmt;

/// The numbers of the answers, with the names that the headers have for them.
pub mod numbers {
    macro_rules! numbers {
        ($($(#[$doc:meta])* $name:ident = $number:literal;)*) => {
            $($(#[$doc])* pub const $name: u8 = $number;)*

            /// All of them.
            #[cfg(test)]
            pub(crate) const ALL: &[(&str, u8)] = &[$((stringify!($name), $number)),*];
        };
    }

    numbers! {
        /// The run is at its end: what it lists is whole.
        COMPLETE = 0;
        /// The number of equations is out of range.
        EQUATIONS = 1;
        /// The number of unknowns is out of range.
        UNKNOWNS = 2;
        /// Coefficients or right sides are not as many as they have to be.
        COUNT = 3;
        /// The stack, or the table that the engine works in, is too short.
        STACK_SHORT = 4;
        /// The lower bound, or the tuple asked about, does not have a component for each unknown.
        TUPLE_LENGTH = 5;
        /// The record or the tables are out of order, or not those of this kind of run.
        OUT_OF_ORDER = 6;
        /// A coefficient is out of range; the place is that of the first such one, row by row.
        COEFFICIENT = 7;
        /// A component of the lower bound, or of the tuple asked about, is above the limit.
        TUPLE_RANGE = 8;
        /// A line is not in the form; the place is its number.
        TEXT_LINE = 9;
        /// The text has more than 4,096 bytes.
        TEXT_LENGTH = 10;
        /// The list has no room for the next solution.
        LIST_FULL = 11;
        /// A component would pass 1,000,000.
        COMPONENT = 12;
        /// 10^12 steps are taken.
        STEPS_AT_LIMIT = 14;
        /// A right side is out of range.
        RIGHT_SIDE = 15;
        /// An equation is outside the grammar; the place is that of a byte.
        GRAMMAR = 16;
        /// Brackets deeper than eight.
        DEPTH = 17;
        /// The product of the multipliers around a bracket is above 10,000.
        MULTIPLIER = 18;
        /// A list file, or the space for it, does not have its length.
        FILE_SIZE = 19;
        /// The words of a block of a list file do not add to zero.
        FILE_SUM = 20;
        /// A block of a list file has another number than its place.
        FILE_NUMBER = 21;
        /// A word of a list file is out of range.
        FILE_RANGE = 22;
        /// More than 6 unknowns at the training seat.
        TRAINING_WIDE = 23;
        /// A component would pass 20 at the training seat.
        TRAINING_COMPONENT = 24;
        /// The groups before a desk have more than 64 solutions, or one with too large an image.
        GENERATORS = 25;
        /// A column is not that of a single-file map; the place is the first such column.
        COLUMN = 26;
        /// Not 1 to 8 runs at a time, or turns of no steps.
        SCHEDULE = 27;
        /// Two parts of a table overlap, or one leaves it.
        PARTS = 28;
        /// What is to be written has no room.
        OUTPUT_SHORT = 29;
        /// A row is no minimal solution; the place is the first such row.
        NOT_MINIMAL = 30;
        /// No more rows of the engine fit into memory, or into the limit.
        ENGINE_FULL = 31;
        /// There is no such equation to take or to change, or one is under way.
        ENGINE_EQUATION = 32;
        /// The unknown cannot be left out of this stage.
        ENGINE_FRESH = 33;
        /// This is no row operation, or a coefficient would be too large.
        ENGINE_OPERATION = 34;
        /// A right side less what the lower bound makes of its equation is too large; the place is the first such equation.
        ENGINE_SIDE = 35;
        /// The numbers do not show that both maps have the same minimal solutions.
        ENGINE_NOT_SHOWN = 36;
        /// A start has written its rows and its record.
        STARTED = 100;
        /// The budget is used up; a further call goes on from here.
        PAUSED = 101;
        /// The row was copied.
        ROW = 102;
        /// There is no such row.
        NO_ROW = 103;
        /// The listing was written; the place is the number of its bytes.
        LISTING_WRITTEN = 104;
        /// The file was written.
        LIST_WRITTEN = 106;
        /// The file was read.
        LIST_READ = 107;
        /// The map was read.
        MAP_READ = 108;
        /// Turns were handed out; each run has its own answer.
        SERVED = 110;
        /// The tuple is all zero.
        ALL_ZERO = 120;
        /// An equation is off; the place is the first such one.
        OFF = 121;
        /// The tuple is in the list; the place is the highest where it stands.
        STANDS = 122;
        /// A row of the list lies below the tuple; the place is the highest of such a row.
        ABOVE = 123;
        /// Nothing listed lies below the tuple, or below what is left of it.
        UNLISTED = 124;
        /// The tuple is made of rows of the list.
        MADE = 125;
        /// A row of the list is at or below the tuple; the place is the highest of such a row.
        AT_OR_BELOW = 126;
        /// No row of the list is at or below the tuple.
        NOWHERE = 127;
        /// Both maps have the same minimal solutions.
        ENGINE_SAME_LOOPS = 128;
        /// The rows were written.
        ENGINE_PROJECTED = 129;
        /// The equation was read.
        EQUATION_READ = 130;
        /// The equation was written; the place is the number of its bytes.
        EQUATION_WRITTEN = 131;
        /// The system was read; the place is the number of its equations.
        SYSTEM_READ = 132;
    }

    /// The former name of `MULTIPLIER`.
    pub const STEEP: u8 = MULTIPLIER;
}

/// What a call of [`crate::calls`] answers: a number, and the place that it comes with.
#[must_use = "a start that is refused writes nothing, so an answer has to be looked at"]
#[derive(Clone, Copy, Debug, PartialEq, Eq, PartialOrd, Ord, Hash)]
pub struct Answer(pub u64);

impl Answer {
    /// 0 is complete, 1 to 99 are refusals, 100 and above are not.
    pub fn number(self) -> u8 {
        (self.0 & 0xff) as u8
    }

    /// From 1; 0 is none.
    pub fn place(self) -> u64 {
        self.0 >> 8
    }

    /// In English.
    pub fn sentence(self) -> &'static str {
        calls::sentence(self.0)
    }

    pub(crate) fn refusal(self) -> Error {
        Error { answer: self, within: 0 }
    }

    /// The place of the one answer that is no refusal.
    pub(crate) fn only(self, number: u8) -> Result<usize, Error> {
        if self.number() == number {
            Ok(self.place() as usize)
        } else {
            Err(self.refusal())
        }
    }

    /// What a call that goes on answers.
    pub(crate) fn progress(self) -> Result<Progress, Error> {
        match self.number() {
            numbers::COMPLETE => Ok(Progress::Complete),
            numbers::PAUSED => Ok(Progress::Paused),
            _ => Err(self.refusal()),
        }
    }
}

/// Whether a run has come to its end.
#[must_use = "a run that is paused has not listed everything"]
#[derive(Clone, Copy, Debug, PartialEq, Eq, PartialOrd, Ord, Hash)]
pub enum Progress {
    /// The budget is used up; a further call goes on from here.
    Paused,
    /// What the run lists is whole.
    Complete,
}

/// A refusal: its number, the place that it comes with, and what it says in English.
///
/// ```
/// let refused = dezgula::System::new([[1, -10_001]])?.basis().unwrap_err();
/// assert_eq!((refused.number(), refused.place()), (7, Some(2)));
/// assert_eq!(refused.sentence(), "A coefficient is outside -10,000 to 10,000.");
/// assert_eq!(refused.to_string(), "A coefficient is outside -10,000 to 10,000. (refusal 7, place 2)");
/// # Ok::<(), dezgula::Error>(())
/// ```
#[derive(Clone, Copy, Debug, PartialEq, Eq, PartialOrd, Ord, Hash)]
pub struct Error {
    answer: Answer,
    within: u64,
}

impl Error {
    pub(crate) fn new(number: u8, place: usize) -> Error {
        Answer(u64::from(number) + 256 * place as u64).refusal()
    }

    pub(crate) fn with(self, within: u64) -> Error {
        Error { within, ..self }
    }

    /// From 1 to 99: one of [`numbers`].
    pub fn number(&self) -> u8 {
        self.answer.number()
    }

    /// The coefficient, column, row, line or byte that is refused, from 1; [`numbers`] says at each number which it is.
    pub fn place(&self) -> Option<u64> {
        Some(self.answer.place()).filter(|&place| place != 0)
    }

    /// Where a line of several equations is refused: the place within the line, from 1. [`Error::place`] is then the line.
    pub fn within(&self) -> Option<u64> {
        Some(self.within).filter(|&place| place != 0)
    }

    /// In English; the place is not in it.
    pub fn sentence(&self) -> &'static str {
        self.answer.sentence()
    }
}

impl fmt::Display for Error {
    fn fmt(&self, f: &mut fmt::Formatter<'_>) -> fmt::Result {
        write!(f, "{} (refusal {}", self.sentence(), self.number())?;
        self.place().map_or(Ok(()), |place| write!(f, ", place {place}"))?;
        self.within().map_or(Ok(()), |within| write!(f, ", there at {within}"))?;
        write!(f, ")")
    }
}

impl std::error::Error for Error {}

#[cfg(test)]
mod tests {
    use super::{numbers, Answer};

    /// Every number that has a sentence of its own has a name here, and the other way round.
    #[test]
    fn every_number_has_a_name() {
        let none = Answer(255).sentence();
        for number in 0..=255_u8 {
            let named = numbers::ALL.iter().filter(|(_, own)| *own == number).count();
            assert_eq!(named, usize::from(Answer(number.into()).sentence() != none), "{number}");
        }
    }
}
