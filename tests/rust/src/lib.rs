//! Compares the library with document 01: what the tests share.

pub mod boxes; // every tuple of a small box, by code that does not walk
pub mod desks; // one desk after the other: the calls
pub mod draw; // drawn numbers, maps and states
pub mod equations; // equations as people write them: the calls
pub mod files; // lists as files: the calls, and the same in plain Rust
pub mod library; // the calls of the crate on the states of the tests
pub mod lower; // runs from a lower bound: the calls, and the same in plain Rust
pub mod model; // the same calls, in plain Rust straight from the document
pub mod questions; // why a tuple is not listed, and what it is made of: the calls, and the same in plain Rust
pub mod sides; // maps with right sides: the calls, and the same in plain Rust
pub mod tally; // how often each answer was given
pub mod training; // the training seat: the calls, and what they are in terms of the office's
pub mod words; // the proved functions on records of other lengths

/// A map. Nothing here says that it is in order: the calls have to find out.
#[derive(Clone, Debug, PartialEq, Eq)]
pub struct System {
    pub p: usize,
    pub q: usize,
    pub coefs: Vec<i32>,
}

/// All that is lent to a call: the two tables and the run record.
#[derive(Clone, Debug, PartialEq, Eq)]
pub struct State {
    pub stack: Vec<u32>,
    pub list: Vec<u32>,
    /// The words of the run record.
    pub record: Vec<u64>,
}

/// The words of a run record in order.
pub const HEIGHT: usize = 0;
pub const FOUND: usize = 1;
pub const STEPS: usize = 2;
pub const KIND: usize = 3;
pub const SECOND: usize = 4;
pub const BEFORE: usize = 5;
pub const DEEPEST: usize = 6;
pub const WORDS: usize = 7;

/// A call's answer; a refusal has the document's number, and 7 has its place.
#[derive(Clone, Copy, Debug, PartialEq, Eq, PartialOrd, Ord)]
pub enum Answer {
    Started,
    Complete,
    Paused,
    Refused { number: u8, value: usize },
}

/// What the reader answers.
#[derive(Clone, Copy, Debug, PartialEq, Eq, PartialOrd, Ord)]
pub enum Shown {
    Row,
    None,
    Refused(u8),
}

/// Which row of a list is at or below a tuple: its place from 1.
#[derive(Clone, Copy, Debug, PartialEq, Eq, PartialOrd, Ord)]
pub enum Located {
    At(usize),
    Nowhere,
    Refused(u8),
}

/// What the listing of a single-file map answers: the bytes written, or a refusal.
#[derive(Clone, Copy, Debug, PartialEq, Eq, PartialOrd, Ord)]
pub enum Listed {
    Written(usize),
    Refused { number: u8, value: usize },
}

impl System {
    /// The map with these rows.
    pub fn of(rows: &[&[i32]]) -> System {
        System { p: rows.len(), q: rows[0].len(), coefs: rows.concat() }
    }
}

impl State {
    /// Tables for q unknowns and `room` rows, with no zeros in them, so that a place written too many shows.
    pub fn blank(q: usize, room: usize) -> State {
        State { stack: vec![0xa5a5_a5a5; q * (q + 1) + 3], list: vec![0x5a5a_5a5a; room * q + q / 2], record: vec![7, 8, 9, 10, 11, 12, u64::MAX] }
    }

    pub fn height(&self) -> usize {
        self.record[HEIGHT] as usize
    }

    pub fn found(&self) -> usize {
        self.record[FOUND] as usize
    }

    pub fn steps(&self) -> u64 {
        self.record[STEPS]
    }

    /// The greatest sum of components among the tuples taken off so far.
    pub fn deepest(&self) -> u64 {
        self.record[DEEPEST]
    }

    /// The rows listed so far.
    pub fn rows(&self, q: usize) -> Vec<Vec<u32>> {
        self.list.chunks(q).take(self.found()).map(<[u32]>::to_vec).collect()
    }
}

impl Answer {
    pub fn refused(number: u8) -> Answer {
        Answer::Refused { number, value: 0 }
    }
}
