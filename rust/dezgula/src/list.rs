//! Lists of tuples.
#![forbid(unsafe_code)]

use crate::answer::{numbers, Error};
use crate::calls::Found;
use std::iter::FusedIterator;
use std::ops::Index;
use std::slice::ChunksExact;

/// A list of tuples, each with a component for each unknown.
///
/// ```
/// let list = dezgula::List::new(2, [[1, 2], [3, 4]])?;
/// assert_eq!(list.iter().map(|row| row.iter().sum::<u32>()).collect::<Vec<_>>(), [3, 7]);
/// assert_eq!((list.get(1), list.get(2), &list[0]), (Some(&[3, 4][..]), None, &[1, 2][..]));
/// # Ok::<(), dezgula::Error>(())
/// ```
#[derive(Clone, Debug, PartialEq, Eq, Hash)]
pub struct List {
    unknowns: usize,
    numbers: Vec<u32>,
}

impl List {
    /// A list of these rows. A row of another length than `unknowns` is refused with 5 and its place, and no unknowns with 2.
    pub fn new<R: AsRef<[u32]>>(unknowns: usize, rows: impl IntoIterator<Item = R>) -> Result<List, Error> {
        if unknowns == 0 {
            return Err(Error::new(numbers::UNKNOWNS, 0));
        }
        let mut numbers = Vec::new();
        for (i, row) in rows.into_iter().enumerate() {
            if row.as_ref().len() != unknowns {
                return Err(Error::new(numbers::TUPLE_LENGTH, i + 1));
            }
            numbers.extend_from_slice(row.as_ref());
        }
        Ok(List { unknowns, numbers })
    }

    /// Rows of a table, of which there are unknowns.
    pub(crate) fn of(unknowns: usize, numbers: &[u32]) -> List {
        List { unknowns, numbers: numbers.to_vec() }
    }

    /// How many components a row has.
    pub fn unknowns(&self) -> usize {
        self.unknowns
    }

    /// How many rows there are.
    pub fn len(&self) -> usize {
        self.numbers.len() / self.unknowns
    }

    /// Whether there are none.
    pub fn is_empty(&self) -> bool {
        self.numbers.is_empty()
    }

    /// The rows, one after the other.
    pub fn iter(&self) -> Rows<'_> {
        Rows::of(self.unknowns, &self.numbers)
    }

    /// The row at a place, from 0.
    pub fn get(&self, place: usize) -> Option<&[u32]> {
        self.iter().nth(place)
    }

    /// All rows, one behind the other.
    pub fn numbers(&self) -> &[u32] {
        &self.numbers
    }

    /// The rows in rising order, to compare two lists that were found in different orders.
    pub fn sorted(&self) -> Vec<&[u32]> {
        let mut rows: Vec<&[u32]> = self.iter().collect();
        rows.sort_unstable();
        rows
    }

    pub(crate) fn found(&self) -> Found<'_> {
        Found { rows: &self.numbers, found: self.len() }
    }
}

/// The row at a place, from 0; a place past the last panics.
impl Index<usize> for List {
    type Output = [u32];

    fn index(&self, place: usize) -> &[u32] {
        &self.numbers[place * self.unknowns..][..self.unknowns]
    }
}

impl<'a> IntoIterator for &'a List {
    type Item = &'a [u32];
    type IntoIter = Rows<'a>;

    fn into_iter(self) -> Rows<'a> {
        self.iter()
    }
}

/// The rows of a list, one after the other.
#[derive(Clone, Debug)]
pub struct Rows<'a> {
    unknowns: usize,
    rows: ChunksExact<'a, u32>,
}

impl<'a> Rows<'a> {
    pub(crate) fn of(unknowns: usize, numbers: &'a [u32]) -> Rows<'a> {
        Rows { unknowns, rows: numbers.chunks_exact(unknowns) }
    }

    /// A copy of the rows that are left.
    pub fn to_list(&self) -> List {
        List { unknowns: self.unknowns, numbers: self.clone().flatten().copied().collect() }
    }
}

impl<'a> Iterator for Rows<'a> {
    type Item = &'a [u32];

    fn next(&mut self) -> Option<&'a [u32]> {
        self.rows.next()
    }

    fn size_hint(&self) -> (usize, Option<usize>) {
        self.rows.size_hint()
    }

    fn nth(&mut self, n: usize) -> Option<&'a [u32]> {
        self.rows.nth(n)
    }
}

impl DoubleEndedIterator for Rows<'_> {
    fn next_back(&mut self) -> Option<Self::Item> {
        self.rows.next_back()
    }
}

impl ExactSizeIterator for Rows<'_> {}
impl FusedIterator for Rows<'_> {}
