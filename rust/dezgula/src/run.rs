//! Runs that lend their own tables, and the kinds of them.
#![forbid(unsafe_code)]

use crate::answer::{numbers, Answer, Error, Progress};
use crate::calls::{self, Full, Lent, Map, Record};
use crate::list::{List, Rows};
use crate::system::System;

/// A kind of run: what its calls are handed besides the system. The kinds are [`Plain`], [`SingleFile`], [`Rights`], [`LowerBound`], [`Desk`], [`Training`] and
/// [`TrainingLowerBound`].
pub trait Kind: sealed::Calls {}

/// The kinds of run that have two lists.
pub trait TwoLists: Kind {}

mod sealed {
    use super::{Answer, Lent, Map};

    pub trait Calls {
        /// How many numbers the stack takes for q unknowns.
        fn stack_length(&self, q: usize) -> usize;
        fn start(&self, m: Map, lent: &mut Lent) -> Answer;
        fn resume(&self, m: Map, lent: &mut Lent, budget: u64) -> Answer;
    }
}

/// The minimal solutions of a system of at most 8 equations and 16 unknowns, by the walk.
#[derive(Clone, Copy, Debug, PartialEq, Eq)]
pub struct Plain;

/// The same for a single-file map: each column has one 1, one -1 and otherwise zeros, or is all zeros. [`System::listing`] then has the order of each row.
#[derive(Clone, Copy, Debug, PartialEq, Eq)]
pub struct SingleFile;

/// With a right side for each equation, and at most 15 unknowns. The list has the minimal solutions of the system without its right sides, the second list the
/// smallest tuples that meet the right sides; every tuple that meets them is one of the second list plus rows of the list.
#[derive(Clone, Debug, PartialEq, Eq)]
pub struct Rights(pub Vec<i32>);

/// From a lower bound with a component for each unknown. The list has the minimal ones among the solutions at or above it; the second list those of the plain walk,
/// which comes first.
#[derive(Clone, Debug, PartialEq, Eq)]
pub struct LowerBound(pub Vec<u32>);

/// One group of equations after others, of which the whole list is handed over: at most 64 rows. Complete, the list has the minimal solutions of all groups
/// together; cut short, it holds solutions of which some may not be minimal.
#[derive(Clone, Debug, PartialEq, Eq)]
pub struct Desk(pub List);

/// As [`Plain`], at the training seat: at most 6 unknowns, and components up to 20.
#[derive(Clone, Copy, Debug, PartialEq, Eq)]
pub struct Training;

/// As [`LowerBound`], at the training seat.
#[derive(Clone, Debug, PartialEq, Eq)]
pub struct TrainingLowerBound(pub Vec<u32>);

/// A system with more unknowns is refused before its stack is looked at.
pub(crate) fn plain_stack(q: usize) -> usize {
    let q = q.min(16);
    q * (q + 1)
}

/// What a kind's calls are, what they are handed besides the system, and how many numbers its stack takes.
macro_rules! kind {
    ($kind:ty, $start:ident, $resume:ident, |$it:ident| ($($given:expr)?), |$q:ident| $length:expr) => {
        impl sealed::Calls for $kind {
            fn stack_length(&self, $q: usize) -> usize {
                #[allow(unused_variables)]
                let $it = self;
                $length
            }

            fn start(&self, m: Map, lent: &mut Lent) -> Answer {
                let $it = self;
                let _ = $it;
                calls::$start(m, $($given,)? lent)
            }

            fn resume(&self, m: Map, lent: &mut Lent, budget: u64) -> Answer {
                let $it = self;
                let _ = $it;
                calls::$resume(m, $($given,)? lent, budget)
            }
        }

        impl Kind for $kind {}
    };
}

kind!(Plain, start, resume, |it| (), |q| plain_stack(q));
kind!(SingleFile, start_single_file, resume_single_file, |it| (), |q| plain_stack(q));
kind!(Training, start_training, resume_training, |it| (), |q| plain_stack(q));
kind!(Rights, start_rights, resume_rights, |it| (&it.0), |q| (q.min(15) + 1) * (q.min(15) + 2));
kind!(LowerBound, start_from, resume_from, |it| (&it.0), |q| plain_stack(q));
kind!(TrainingLowerBound, start_training_from, resume_training_from, |it| (&it.0), |q| plain_stack(q));
kind!(Desk, start_desk, resume_desk, |it| (it.0.found()), |q| it.0.len() * (q.min(16) + 2));

impl TwoLists for Rights {}
impl TwoLists for LowerBound {}
impl TwoLists for TrainingLowerBound {}

/// A run under way: it can be paused and gone on with, copied, and sent to another thread. Its lists grow as they fill.
///
/// ```
/// use dezgula::{Plain, Progress, System};
/// let mut run = System::new([[-1, 1, 2, -3], [-1, 3, -2, -1]])?.start(Plain)?;
/// while run.resume(10)? == Progress::Paused {
///     println!("{} steps, {} solutions so far", run.steps(), run.list().len());
/// }
/// assert_eq!(run.list().collect::<Vec<_>>(), [[0, 1, 1, 1], [4, 2, 1, 0]]);
/// # Ok::<(), dezgula::Error>(())
/// ```
#[derive(Clone, Debug)]
pub struct Run<K> {
    system: System,
    kind: K,
    stack: Vec<u32>,
    list: Vec<u32>,
    second: Vec<u32>,
    record: Record,
    most_rows: usize,
}

impl<K: Kind> Run<K> {
    pub(crate) fn new(system: System, kind: K) -> Result<Run<K>, Error> {
        let stack = vec![0; kind.stack_length(system.unknowns())];
        let mut run = Run { system, kind, stack, list: vec![], second: vec![], record: Record::default(), most_rows: usize::MAX };
        run.call(|kind, m, lent| kind.start(m, lent)).only(numbers::STARTED)?;
        Ok(run)
    }

    fn call<A>(&mut self, call: impl FnOnce(&K, Map, &mut Lent) -> A) -> A {
        let mut lent = Lent { stack: &mut self.stack, list: &mut self.list, second: &mut self.second, record: &mut self.record };
        call(&self.kind, self.system.map(), &mut lent)
    }

    /// Goes on for at most `budget` steps. A refusal leaves the run as after its last whole step, with what is listed by then.
    pub fn resume(&mut self, budget: u64) -> Result<Progress, Error> {
        let mut left = budget;
        loop {
            let before = self.steps();
            let answer = self.call(|kind, m, lent| kind.resume(m, lent, left));
            left = left.saturating_sub(self.steps() - before);
            if answer.number() != numbers::LIST_FULL || !self.grow() {
                return answer.progress();
            }
        }
    }

    /// Goes on to the end, however long that takes.
    pub fn complete(&mut self) -> Result<&mut Run<K>, Error> {
        while self.resume(u64::MAX)? == Progress::Paused {}
        Ok(self)
    }

    /// Makes the full list twice as long. Not where it has all rows that it may have, or there is no memory.
    fn grow(&mut self) -> bool {
        let q = self.system.unknowns();
        let full = match self.call(|_, m, lent| calls::full_list(m, lent)) {
            Full::List => &mut self.list,
            Full::Second => &mut self.second,
            Full::Neither => return false,
        };
        let rows = full.len() / q;
        let more = rows.max(16).min(self.most_rows.saturating_sub(rows));
        let length = more.saturating_mul(q);
        if length == 0 || full.try_reserve_exact(length).is_err() {
            return false;
        }
        full.resize(full.len() + length, 0);
        true
    }

    /// The most rows that a list of the run may have; where one more is needed the run is refused with 11, and goes on once more are allowed.
    pub fn limit(&mut self, rows: usize) -> &mut Run<K> {
        self.most_rows = rows;
        self
    }

    /// The system that it is a run of.
    pub fn system(&self) -> &System {
        &self.system
    }

    /// Its kind, with what was given for it.
    pub fn kind(&self) -> &K {
        &self.kind
    }

    /// The steps taken since the start, of both walks where there are two.
    pub fn steps(&self) -> u64 {
        self.record.steps + self.record.before
    }

    /// The record of the run, as the library keeps it.
    pub fn record(&self) -> &Record {
        &self.record
    }

    /// What is listed so far, in the order found.
    pub fn list(&self) -> Rows<'_> {
        let q = self.system.unknowns();
        Rows::of(q, &self.list[..self.record.found as usize * q])
    }

    /// A copy of what is listed so far.
    pub fn to_list(&self) -> List {
        self.list().to_list()
    }
}

impl<K: TwoLists> Run<K> {
    /// What the second list has so far.
    pub fn second(&self) -> Rows<'_> {
        let q = self.system.unknowns();
        Rows::of(q, &self.second[..self.record.second as usize * q])
    }

    /// A copy of what the second list has so far.
    pub fn second_to_list(&self) -> List {
        self.second().to_list()
    }
}
