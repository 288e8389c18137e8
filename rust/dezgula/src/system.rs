//! Systems, and the questions about a list.
#![forbid(unsafe_code)]

use crate::answer::{numbers, Answer, Error};
use crate::calls::{self, Map};
use crate::list::List;
use crate::run::{Desk, Kind, LowerBound, Plain, Rights, Run};
use crate::Solver;

/// A system of linear equations whose right sides are zero, given by its coefficients.
///
/// ```
/// let system = dezgula::System::new([[1, -1, 1, -1], [0, 1, -1, 0]])?;
/// assert_eq!((system.equations(), system.unknowns()), (2, 4));
/// assert_eq!(system.basis()?.sorted(), [[0, 1, 1, 0], [1, 0, 0, 1]]);
/// # Ok::<(), dezgula::Error>(())
/// ```
#[derive(Clone, Debug, PartialEq, Eq, Hash)]
pub struct System {
    p: usize,
    q: usize,
    coefs: Vec<i32>,
}

/// Why a tuple is not in a list. Rows are counted from 0, as are equations.
#[derive(Clone, Copy, Debug, PartialEq, Eq)]
pub enum Reason {
    /// The tuple is all zero.
    AllZero,
    /// It does not bring this equation, the first such one, to zero, but to the amount.
    Off {
        /// From 0.
        equation: usize,
        /// Its left side.
        amount: i64,
    },
    /// It is in the list, as this row, the last such one.
    Stands {
        /// From 0.
        row: usize,
    },
    /// This row, the last such one, lies below it.
    Above {
        /// From 0.
        row: usize,
    },
    /// Nothing listed lies below it: the list is not complete.
    Unlisted,
}

/// What a tuple is made of.
#[derive(Clone, Debug, PartialEq, Eq)]
pub enum Made {
    /// The rows of the list, each so many times, add up to it.
    Of(Vec<u32>),
    /// It does not bring this equation, the first such one, to zero, but to the amount.
    Off {
        /// From 0.
        equation: usize,
        /// Its left side.
        amount: i64,
    },
    /// These rows add up to a part of it, and nothing listed lies below the rest: the list is not complete.
    Unlisted(Vec<u32>),
}

/// A place from 1 as one from 0.
fn from_zero(answer: Answer) -> usize {
    (answer.place() as usize).wrapping_sub(1)
}

impl System {
    /// The system with these rows of coefficients, an equation a row. Refused are no rows (1), rows without coefficients (2) and rows of another length than the
    /// first (3, with the place of the row); how large a system and its coefficients may be depends on what it is asked, which refuses it then.
    pub fn new<R: AsRef<[i32]>>(rows: impl IntoIterator<Item = R>) -> Result<System, Error> {
        let (mut p, mut q, mut coefs) = (0, 0, Vec::new());
        for row in rows {
            let row = row.as_ref();
            p += 1;
            if p == 1 {
                q = row.len();
            }
            if row.len() != q {
                return Err(Error::new(numbers::COUNT, p));
            }
            coefs.extend_from_slice(row);
        }
        match (p, q) {
            (0, _) => Err(Error::new(numbers::EQUATIONS, 0)),
            (_, 0) => Err(Error::new(numbers::UNKNOWNS, 0)),
            _ => Ok(System { p, q, coefs }),
        }
    }

    pub(crate) fn of(p: usize, q: usize, coefs: &[i32]) -> System {
        System { p, q, coefs: coefs[..p * q].to_vec() }
    }

    pub(crate) fn map(&self) -> Map<'_> {
        Map { p: self.p, q: self.q, coefs: &self.coefs }
    }

    /// How many equations it has.
    pub fn equations(&self) -> usize {
        self.p
    }

    /// How many unknowns it has.
    pub fn unknowns(&self) -> usize {
        self.q
    }

    /// The rows of coefficients.
    pub fn rows(&self) -> std::slice::ChunksExact<'_, i32> {
        self.coefs.chunks_exact(self.q)
    }

    // ---- lists

    /// The minimal solutions, all of them, by the engine: at most 32 equations and 32 unknowns. It goes on however long that takes; [`System::solver`] can be
    /// paused.
    pub fn basis(&self) -> Result<List, Error> {
        self.solver()?.complete()
    }

    /// The engine for this system, to be let work for a while at a time.
    pub fn solver(&self) -> Result<Solver, Error> {
        Solver::new(self)
    }

    /// The engine from a list of the equations before, whoever made it, with these as further equations: its list is that of both together, in any grouping
    /// and however many rows a list has. That the list is whole is what the caller answers for. Refused with 6 where a row is all zero or has a component above
    /// 1,000,000.
    ///
    /// ```
    /// use dezgula::System;
    /// let review = System::new([[1, -1, 1, -1, 0], [0, 1, -1, 0, 0]])?;
    /// let signing = System::new([[0, 0, 0, 1, -2]])?;
    /// let whole = System::new(review.rows().chain(signing.rows()))?;
    /// assert_eq!(signing.solver_from(&review.basis()?)?.complete()?.sorted(), whole.basis()?.sorted());
    /// # Ok::<(), dezgula::Error>(())
    /// ```
    pub fn solver_from(&self, list: &List) -> Result<Solver, Error> {
        self.same_unknowns(list)?;
        Solver::new_from(self, list)
    }

    /// The engine with right sides, a lower bound or both: at most 31 unknowns, right sides from -10,000 to 10,000, and components of the bound up to 1,000,000.
    /// [`Solver::rows`] has the minimal solutions without right sides, [`Solver::smallest`] the smallest tuples at or above the bound that meet them; where there
    /// are none of these, nothing at or above the bound does.
    ///
    /// ```
    /// use dezgula::System;
    /// let mut solver = System::new([[1, -2]])?.solver_with(Some(&[3]), Some(&[4, 0]))?;
    /// assert_eq!(solver.complete()?.len(), 1);
    /// assert_eq!(solver.smallest().map(|rows| rows.to_list().len()), Some(1));
    /// # Ok::<(), dezgula::Error>(())
    /// ```
    pub fn solver_with(&self, rights: Option<&[i32]>, lower: Option<&[u32]>) -> Result<Solver, Error> {
        Solver::new_sides(self, rights, lower)
    }

    /// Starts a run of this kind.
    pub fn start<K: Kind>(&self, kind: K) -> Result<Run<K>, Error> {
        Run::new(self.clone(), kind)
    }

    /// The smallest tuples with these right sides, and the minimal solutions without: a complete run of [`Rights`].
    ///
    /// ```
    /// // 2 x1 - 3 x2 = 1
    /// let run = dezgula::System::new([[2, -3]])?.with_rights([1])?;
    /// assert_eq!(run.second().collect::<Vec<_>>(), [[2, 1]]);
    /// assert_eq!(run.list().collect::<Vec<_>>(), [[3, 2]]);
    /// # Ok::<(), dezgula::Error>(())
    /// ```
    pub fn with_rights(&self, rights: impl Into<Vec<i32>>) -> Result<Run<Rights>, Error> {
        let mut run = self.start(Rights(rights.into()))?;
        run.complete()?;
        Ok(run)
    }

    /// The smallest solutions at or above a lower bound: a complete run of [`LowerBound`].
    ///
    /// ```
    /// let run = dezgula::System::new([[2, -3]])?.from_lower([4, 0])?;
    /// assert_eq!(run.list().collect::<Vec<_>>(), [[6, 4]]);
    /// # Ok::<(), dezgula::Error>(())
    /// ```
    pub fn from_lower(&self, lower: impl Into<Vec<u32>>) -> Result<Run<LowerBound>, Error> {
        let mut run = self.start(LowerBound(lower.into()))?;
        run.complete()?;
        Ok(run)
    }

    /// The minimal solutions of all groups of equations together, built one group after the other: the same list as that of one system with all of them.
    /// Refused with 25 where the groups before one of them have more than 64 solutions.
    ///
    /// ```
    /// use dezgula::System;
    /// let review = System::new([[1, -1, 1, -1, 0], [0, 1, -1, 0, 0]])?;
    /// let signing = System::new([[0, 0, 0, 1, -2]])?;
    /// let whole = System::new(review.rows().chain(signing.rows()))?;
    /// assert_eq!(System::desks([&review, &signing])?.sorted(), whole.basis()?.sorted());
    /// # Ok::<(), dezgula::Error>(())
    /// ```
    pub fn desks<'a>(groups: impl IntoIterator<Item = &'a System>) -> Result<List, Error> {
        let mut listed: Option<List> = None;
        for group in groups {
            listed = Some(match listed {
                None => group.start(Plain)?.complete()?.to_list(),
                Some(list) if list.unknowns() != group.q => return Err(Error::new(numbers::TUPLE_LENGTH, 0)),
                Some(list) => group.start(Desk(list))?.complete()?.to_list(),
            });
        }
        listed.ok_or(Error::new(numbers::EQUATIONS, 0))
    }

    // ---- questions, of at most 32 equations and 32 unknowns, and of lists of any length

    /// Which row of the list is at or below a tuple: the last of such, from 0.
    ///
    /// ```
    /// let system = dezgula::System::new([[1, 1, -1]])?;
    /// let list = dezgula::List::new(3, [[0, 1, 1], [1, 0, 1]])?;
    /// assert_eq!((system.locate(&list, &[5, 5, 5])?, system.locate(&list, &[0, 5, 5])?, system.locate(&list, &[5, 5, 0])?), (Some(1), Some(0), None));
    /// # Ok::<(), dezgula::Error>(())
    /// ```
    pub fn locate(&self, list: &List, tuple: &[u32]) -> Result<Option<usize>, Error> {
        self.same_unknowns(list)?;
        let answer = calls::engine_locate(self.map(), list.found(), tuple);
        match answer.number() {
            numbers::AT_OR_BELOW => Ok(Some(from_zero(answer))),
            numbers::NOWHERE => Ok(None),
            _ => Err(answer.refusal()),
        }
    }

    /// Why a tuple is not in the list.
    ///
    /// ```
    /// use dezgula::{Reason, System};
    /// let system = System::new([[2, -3]])?;
    /// let basis = system.basis()?;
    /// assert_eq!(system.why(&basis, &[6, 4])?, Reason::Above { row: 0 });
    /// assert_eq!(system.why(&basis, &[2, 1])?, Reason::Off { equation: 0, amount: 1 });
    /// # Ok::<(), dezgula::Error>(())
    /// ```
    pub fn why(&self, list: &List, tuple: &[u32]) -> Result<Reason, Error> {
        self.same_unknowns(list)?;
        let mut amount = 0;
        let answer = calls::engine_reason(self.map(), list.found(), tuple, &mut amount);
        match answer.number() {
            numbers::ALL_ZERO => Ok(Reason::AllZero),
            numbers::OFF => Ok(Reason::Off { equation: from_zero(answer), amount }),
            numbers::STANDS => Ok(Reason::Stands { row: from_zero(answer) }),
            numbers::ABOVE => Ok(Reason::Above { row: from_zero(answer) }),
            numbers::UNLISTED => Ok(Reason::Unlisted),
            _ => Err(answer.refusal()),
        }
    }

    /// Which rows of the list make up a tuple, and how often each.
    ///
    /// ```
    /// use dezgula::{Made, System};
    /// let system = System::new([[2, -3]])?;
    /// assert_eq!(system.plan(&system.basis()?, &[6, 4])?, Made::Of(vec![2]));
    /// # Ok::<(), dezgula::Error>(())
    /// ```
    pub fn plan(&self, list: &List, tuple: &[u32]) -> Result<Made, Error> {
        self.same_unknowns(list)?;
        let (mut times, mut amount) = (vec![0; list.len()], 0);
        let answer = calls::engine_decompose(self.map(), list.found(), tuple, &mut times, &mut amount);
        match answer.number() {
            numbers::MADE => Ok(Made::Of(times)),
            numbers::UNLISTED => Ok(Made::Unlisted(times)),
            numbers::OFF => Ok(Made::Off { equation: from_zero(answer), amount }),
            _ => Err(answer.refusal()),
        }
    }

    /// The list of a single-file map as text: a line a row, with its unknowns and the order in which they follow each other.
    ///
    /// ```
    /// use dezgula::{SingleFile, System};
    /// let ring = System::new([[1, 0, -1], [-1, 1, 0], [0, -1, 1]])?;
    /// let mut run = ring.start(SingleFile)?;
    /// assert_eq!(ring.listing(&run.complete()?.to_list())?, "1 2 3 order 1 3 2\n");
    /// # Ok::<(), dezgula::Error>(())
    /// ```
    pub fn listing(&self, list: &List) -> Result<String, Error> {
        self.same_unknowns(list)?;
        let mut out = vec![0; list.len() * (2 * 3 * 16 + 7)];
        let length = calls::listing(self.map(), list.found(), &mut out).only(numbers::LISTING_WRITTEN)?;
        out.truncate(length);
        Ok(String::from_utf8_lossy(&out).into_owned())
    }

    /// The calls are handed rows without a length of their own.
    fn same_unknowns(&self, list: &List) -> Result<(), Error> {
        if list.unknowns() == self.q {
            Ok(())
        } else {
            Err(Error::new(numbers::TUPLE_LENGTH, 0))
        }
    }
}
