//! The engine's solver, for systems of at most 32 equations and 32 unknowns.

use crate::answer::{numbers, Answer, Error, Progress};
use crate::list::{List, Rows};
use crate::sys;
use crate::system::System;
use std::ptr::{self, NonNull};
use std::slice;

/// How far a solver is.
#[derive(Clone, Copy, Debug, Default, PartialEq, Eq)]
pub struct Told {
    /// Equations done. It may try one order of them and then another, so that this can fall.
    pub done: usize,
    /// Of so many equations.
    pub equations: usize,
    /// Rows of the stage under way, or else of the basis.
    pub rows: u64,
    /// Turns taken; this never falls.
    pub steps: u64,
}

/// The engine at work on a system: it can be paused and gone on with, sent to another thread, and kept in a file. Its tables grow as they fill.
///
/// ```
/// use dezgula::{Progress, System};
/// let mut solver = System::new([[3, -2, -1, 4], [1, 1, -5, 0]])?.solver()?;
/// while solver.work(0)? == Progress::Paused {
///     println!("{} of {} equations", solver.told().done, solver.told().equations);
/// }
/// assert_eq!(solver.rows().map(|rows| rows.len()), Some(6));
/// # Ok::<(), dezgula::Error>(())
/// ```
#[derive(Debug)]
pub struct Solver {
    /// One that the library made, which is freed once, when this is dropped.
    own: NonNull<sys::dezgula_solver>,
}

// SAFETY: a solver is plain numbers and tables of its own, from malloc, and may go on in any thread, in one at a time, which `&mut` says.
unsafe impl Send for Solver {}
// SAFETY: the calls that `&self` makes take the solver const, and those only read it.
unsafe impl Sync for Solver {}

impl Solver {
    pub(crate) fn new(system: &System) -> Result<Solver, Error> {
        let mut answer = 0;
        // SAFETY: the system's table is a slice with its length that lives as long as the call, which copies it; the answer is borrowed exclusively.
        let own = unsafe { sys::dezgula_solver_new(&system.map().lent(), &mut answer) };
        Solver::owning(own, answer)
    }

    pub(crate) fn new_from(system: &System, list: &List) -> Result<Solver, Error> {
        let mut answer = 0;
        // SAFETY: the system's and the list's tables are slices with their lengths that live as long as the call, which copies them; the answer is borrowed
        // exclusively.
        let own = unsafe { sys::dezgula_solver_new_from(&system.map().lent(), &list.found().lent(), &mut answer) };
        Solver::owning(own, answer)
    }

    pub(crate) fn new_sides(system: &System, rights: Option<&[i32]>, lower: Option<&[u32]>) -> Result<Solver, Error> {
        let (map, mut answer) = (system.map().lent(), 0);
        if rights.is_some_and(|rights| rights.len() != map.p) {
            return Err(Error::new(numbers::COUNT, 0));
        }
        if lower.is_some_and(|lower| lower.len() != map.q) {
            return Err(Error::new(numbers::TUPLE_LENGTH, 0));
        }
        let (rights, lower) = (rights.map_or(ptr::null(), <[i32]>::as_ptr), lower.map_or(ptr::null(), <[u32]>::as_ptr));
        // SAFETY: the system's table is a slice with its length, the right sides are as many as its equations and the bound as its unknowns, or NULL; all live as
        // long as the call, which copies them; the answer is borrowed exclusively.
        let own = unsafe { sys::dezgula_solver_new_sides(&map, rights, lower, &mut answer) };
        Solver::owning(own, answer)
    }

    fn owning(own: *mut sys::dezgula_solver, answer: u64) -> Result<Solver, Error> {
        NonNull::new(own).map(|own| Solver { own }).ok_or(Answer(answer).refusal())
    }

    /// Works for about `budget` turns; 0 is as many as take about 50 ms. Refused with 31 where no more rows fit into memory or into the limit: it may be called
    /// again when there is more of it.
    pub fn work(&mut self, budget: u64) -> Result<Progress, Error> {
        // SAFETY: the solver is one that was made and is not freed before this is dropped; it is borrowed exclusively.
        Answer(unsafe { sys::dezgula_solver_work(self.own.as_ptr(), budget) }).progress()
    }

    /// Goes on to the end, however long that takes, and gives the whole list.
    pub fn complete(&mut self) -> Result<List, Error> {
        while self.work(0)? == Progress::Paused {}
        self.to_list().ok_or(Error::new(numbers::OUT_OF_ORDER, 0))
    }

    /// The most bytes of all tables together; at first there is no limit.
    pub fn limit(&mut self, bytes: usize) -> &mut Solver {
        // SAFETY: as for the work.
        unsafe { sys::dezgula_solver_limit(self.own.as_ptr(), bytes) }
        self
    }

    /// How far it is.
    pub fn told(&self) -> Told {
        // SAFETY: the solver is one that was made and is not freed before this is dropped; the call only reads it.
        let told = unsafe { sys::dezgula_solver_told(self.own.as_ptr()) };
        Told { done: told.done, equations: told.equations, rows: told.rows, steps: told.steps }
    }

    fn lent(&self) -> sys::dezgula_system {
        // SAFETY: as for what is told.
        unsafe { sys::dezgula_solver_system(self.own.as_ptr()) }
    }

    /// The system that it is for; of one from a list, the further equations.
    pub fn system(&self) -> System {
        let lent = self.lent();
        // SAFETY: the library's copy of the coefficients has so many, and stays until the solver is freed, which this outlives.
        System::of(lent.p, lent.q, unsafe { slice::from_raw_parts(lent.coefs, lent.coefs_len) })
    }

    /// The rows of the whole list where they stand; none before it is complete.
    pub fn rows(&self) -> Option<Rows<'_>> {
        let (mut count, unknowns) = (0, self.lent().q);
        // SAFETY: as for what is told; the count is borrowed exclusively.
        let rows = unsafe { sys::dezgula_solver_rows(self.own.as_ptr(), &mut count) };
        if rows.is_null() {
            return None;
        }
        // SAFETY: so many rows stand there, in one table of the library, and stay until the solver works or is freed: both need it when this borrow is over.
        Some(Rows::of(unknowns, unsafe { slice::from_raw_parts(rows, count * unknowns) }))
    }

    /// Of a solver with right sides or a lower bound, the smallest tuples that meet them; none before it is complete, and of any other solver.
    pub fn smallest(&self) -> Option<Rows<'_>> {
        let (mut count, unknowns) = (0, self.lent().q);
        // SAFETY: as for what is told; the count is borrowed exclusively.
        let rows = unsafe { sys::dezgula_solver_smallest(self.own.as_ptr(), &mut count) };
        if rows.is_null() {
            return None;
        }
        // SAFETY: as for the rows.
        Some(Rows::of(unknowns, unsafe { slice::from_raw_parts(rows, count * unknowns) }))
    }

    /// A copy of the whole list; none before it is complete.
    pub fn to_list(&self) -> Option<List> {
        self.rows().map(|rows| rows.to_list())
    }

    /// The solver as bytes, to be kept in a file and gone on from elsewhere: the words of `dezgula_solver_save`, lowest byte first, as the module in Python has
    /// them too.
    ///
    /// ```
    /// use dezgula::{Progress, Solver, System};
    /// let mut solver = System::new([[30, -2, -1, 4, -7], [1, 1, -5, 0, 3]])?.solver()?;
    /// assert_eq!(solver.work(10)?, Progress::Paused);
    /// let kept = solver.save();
    /// let mut elsewhere = Solver::load(&kept)?;
    /// assert_eq!((elsewhere.system(), elsewhere.told()), (solver.system(), solver.told()));
    /// assert_eq!(elsewhere.complete()?, solver.complete()?);
    /// # Ok::<(), dezgula::Error>(())
    /// ```
    pub fn save(&self) -> Vec<u8> {
        // SAFETY: as for what is told.
        let mut words = vec![0_u32; unsafe { sys::dezgula_solver_saved_length(self.own.as_ptr()) }];
        // SAFETY: the table has as many words as the call writes: nothing works with the solver between the two.
        unsafe { sys::dezgula_solver_save(self.own.as_ptr(), words.as_mut_ptr()) }
        words.iter().flat_map(|word| word.to_le_bytes()).collect()
    }

    /// The solver that was saved as these bytes. It has no limit of memory. Other bytes are refused with 6; the list is right where the bytes are those saved: a
    /// row that is missing in them cannot be told.
    pub fn load(bytes: &[u8]) -> Result<Solver, Error> {
        let words: Vec<u32> = bytes.chunks_exact(4).map(|b| u32::from_le_bytes([b[0], b[1], b[2], b[3]])).collect();
        if 4 * words.len() != bytes.len() {
            return Err(Error::new(numbers::OUT_OF_ORDER, 0));
        }
        let mut answer = 0;
        // SAFETY: the words are a slice with its length, which may hold anything, and live as long as the call, which copies them.
        let own = unsafe { sys::dezgula_solver_load(words.as_ptr(), words.len(), &mut answer) };
        Solver::owning(own, answer)
    }
}

impl Drop for Solver {
    fn drop(&mut self) {
        // SAFETY: the solver was made by the library and is freed here alone; nothing borrowed from it is left.
        unsafe { sys::dezgula_solver_free(self.own.as_ptr()) }
    }
}
