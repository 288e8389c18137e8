//! The library's calls one by one, over tables that the caller lends: safe, and nothing more. A slice's pointer is never null and has its length, and `&mut` keeps
//! what is written apart from everything else; that is all that the calls need, for they trust nothing else that they are lent.
//!
//! Most programs want [`crate::Run`] and [`crate::System::basis`] instead, which lend the tables themselves.
//!
//! ```
//! use dezgula::calls::{self, Lent, Map, Record};
//! let map = Map { p: 1, q: 2, coefs: &[2, -3] };
//! let (mut stack, mut list, mut record) = ([0; 6], [0; 20], Record::default());
//! let mut run = Lent { stack: &mut stack, list: &mut list, second: &mut [], record: &mut record };
//! assert_eq!(calls::start(map, &mut run).number(), 100);
//! assert_eq!(calls::resume(map, &mut run, 1000).number(), 0);
//! assert_eq!((record.found, &list[..2]), (1, &[3, 2][..]));
//! ```

use crate::answer::Answer;
use crate::sys;
use std::ffi::CStr;
use std::os::raw::c_char;

pub use sys::{
    dezgula_engine_record as EngineRecord, dezgula_part as Part, dezgula_record as Record, dezgula_round as Round, dezgula_share as Share, dezgula_turn as Turn,
};

/// A system as a call is lent it. Nothing here says that it is in order: the calls find out.
#[derive(Clone, Copy, Debug)]
pub struct Map<'a> {
    /// Equations.
    pub p: usize,
    /// Unknowns.
    pub q: usize,
    /// Coefficients, row by row.
    pub coefs: &'a [i32],
}

/// What a run is lent, and its record. Runs of one list leave `second` alone.
#[derive(Debug)]
pub struct Lent<'a> {
    /// Rows of components and marks; how long it has to be depends on the kind of run.
    pub stack: &'a mut [u32],
    /// Rows of q numbers, as many as there is room for.
    pub list: &'a mut [u32],
    /// The same, for the kinds of run that have two lists.
    pub second: &'a mut [u32],
    /// A start sets it; until then it may hold anything.
    pub record: &'a mut Record,
}

/// Rows of q numbers each, one behind the other: the first `found` of a table.
#[derive(Clone, Copy, Debug)]
pub struct Found<'a> {
    /// The table.
    pub rows: &'a [u32],
    /// How many rows of it there are.
    pub found: usize,
}

/// Which list has no room, after a run was refused with 11.
#[derive(Clone, Copy, Debug, PartialEq, Eq)]
pub enum Full {
    /// None: that cannot be, as at height 0.
    Neither,
    /// The list.
    List,
    /// The second list.
    Second,
}

/// The version of the library that is linked.
pub fn version() -> &'static str {
    // SAFETY: the call returns a text that is part of the library, which is not unloaded, and ends in 0.
    unsafe { CStr::from_ptr(sys::dezgula_version()) }.to_str().unwrap_or("")
}

pub(crate) fn sentence(answer: u64) -> &'static str {
    // SAFETY: as above; the call takes any number, and is never null.
    unsafe { CStr::from_ptr(sys::dezgula_sentence(answer)) }.to_str().unwrap_or("")
}

impl Map<'_> {
    pub(crate) fn lent(&self) -> sys::dezgula_system {
        sys::dezgula_system { p: self.p, q: self.q, coefs: self.coefs.as_ptr(), coefs_len: self.coefs.len() }
    }
}

impl Found<'_> {
    pub(crate) fn lent(&self) -> sys::dezgula_list {
        sys::dezgula_list { rows: self.rows.as_ptr(), rows_len: self.rows.len(), found: self.found }
    }
}

impl Lent<'_> {
    fn lent(&mut self) -> sys::dezgula_run {
        sys::dezgula_run {
            stack: self.stack.as_mut_ptr(),
            stack_len: self.stack.len(),
            list: self.list.as_mut_ptr(),
            list_len: self.list.len(),
            second: self.second.as_mut_ptr(),
            second_len: self.second.len(),
            record: *self.record,
        }
    }
}

// ---- runs

/// The calls on a run. What a kind is handed besides the system stands between it and the run; the record goes in with the tables, and comes out of them.
macro_rules! on_run {
    ($($(#[$doc:meta])* $name:ident: $call:ident($($given:ident: $type:ty => $($handed:expr),+)?) $($budget:ident)?;)*) => {$(
        $(#[$doc])*
        pub fn $name(m: Map, $($given: $type,)? run: &mut Lent $(, $budget: u64)?) -> Answer {
            let mut lent = run.lent();
            // SAFETY: the pointers of the system, of what is given and of the run are those of slices, with their lengths, and live as long as the call;
            // what the call may write is borrowed exclusively, so that it lies apart from all else.
            let answer = unsafe { sys::$call(&m.lent(), $($($handed,)+)? &mut lent $(, $budget)?) };
            *run.record = lent.record;
            Answer(answer)
        }
    )*};
}

on_run! {
    /// `dezgula_start`: a plain run.
    start: dezgula_start();
    /// `dezgula_resume`.
    resume: dezgula_resume() budget;
    /// `dezgula_start_single_file`.
    start_single_file: dezgula_start_single_file();
    /// `dezgula_resume_single_file`.
    resume_single_file: dezgula_resume_single_file() budget;
    /// `dezgula_start_rights`: a run with right sides.
    start_rights: dezgula_start_rights(rights: &[i32] => rights.as_ptr(), rights.len());
    /// `dezgula_resume_rights`.
    resume_rights: dezgula_resume_rights(rights: &[i32] => rights.as_ptr(), rights.len()) budget;
    /// `dezgula_start_from`: a run from a lower bound.
    start_from: dezgula_start_from(lower: &[u32] => lower.as_ptr(), lower.len());
    /// `dezgula_resume_from`.
    resume_from: dezgula_resume_from(lower: &[u32] => lower.as_ptr(), lower.len()) budget;
    /// `dezgula_start_training`: a run at the training seat.
    start_training: dezgula_start_training();
    /// `dezgula_resume_training`.
    resume_training: dezgula_resume_training() budget;
    /// `dezgula_start_training_from`.
    start_training_from: dezgula_start_training_from(lower: &[u32] => lower.as_ptr(), lower.len());
    /// `dezgula_resume_training_from`.
    resume_training_from: dezgula_resume_training_from(lower: &[u32] => lower.as_ptr(), lower.len()) budget;
    /// `dezgula_start_desk`: one group of equations after others, whose list is handed over.
    start_desk: dezgula_start_desk(generators: Found => &generators.lent());
    /// `dezgula_resume_desk`.
    resume_desk: dezgula_resume_desk(generators: Found => &generators.lent()) budget;
}

/// `dezgula_row`: row n, from 1, of the list.
pub fn row(m: Map, run: &mut Lent, n: usize, out: &mut [u32]) -> Answer {
    // SAFETY: as for the calls on a run; of the run it only reads, and what it writes is borrowed exclusively.
    Answer(unsafe { sys::dezgula_row(&m.lent(), &run.lent(), n, out.as_mut_ptr(), out.len()) })
}

/// `dezgula_second_row`: row n, from 1, of the second list.
pub fn second_row(m: Map, run: &mut Lent, n: usize, out: &mut [u32]) -> Answer {
    // SAFETY: as above.
    Answer(unsafe { sys::dezgula_second_row(&m.lent(), &run.lent(), n, out.as_mut_ptr(), out.len()) })
}

/// `dezgula_full_list`: which list has no room.
pub fn full_list(m: Map, run: &mut Lent) -> Full {
    // SAFETY: as above; it writes nothing.
    match unsafe { sys::dezgula_full_list(&m.lent(), &run.lent()) } {
        1 => Full::List,
        2 => Full::Second,
        _ => Full::Neither,
    }
}

// ---- questions

/// The questions, for maps of at most 8 equations and 16 unknowns, and for those of the engine.
macro_rules! questions {
    ($($(#[$doc:meta])* $name:ident: $call:ident($($lent:ident: $type:ty => $($handed:expr),+);*);)*) => {$(
        $(#[$doc])*
        pub fn $name(m: Map, list: Found, tuple: &[u32] $(, $lent: $type)*) -> Answer {
            // SAFETY: the pointers are those of slices, with their lengths, and live as long as the call; what it may write is borrowed exclusively.
            Answer(unsafe { sys::$call(&m.lent(), &list.lent(), tuple.as_ptr(), tuple.len() $($(, $handed)+)*) })
        }
    )*};
}

questions! {
    /// `dezgula_locate`: which row is at or below a tuple.
    locate: dezgula_locate();
    /// `dezgula_reason`: why a tuple is not listed. `amount` is written where an equation is off.
    reason: dezgula_reason(amount: &mut i64 => amount);
    /// `dezgula_decompose`: what a tuple is made of. `amount` is written where an equation is off, `times` where it is taken apart.
    decompose: dezgula_decompose(times: &mut [u32] => times.as_mut_ptr(), times.len(); amount: &mut i64 => amount);
    /// `dezgula_engine_locate`.
    engine_locate: dezgula_engine_locate();
    /// `dezgula_engine_reason`.
    engine_reason: dezgula_engine_reason(amount: &mut i64 => amount);
    /// `dezgula_engine_decompose`.
    engine_decompose: dezgula_engine_decompose(times: &mut [u32] => times.as_mut_ptr(), times.len(); amount: &mut i64 => amount);
}

/// A map in the place of another, and what shows that both have the same minimal solutions: see `dezgula_engine.h`.
#[derive(Clone, Copy, Debug, Default)]
pub struct Reformulation<'a> {
    /// The further unknowns.
    pub further: usize,
    /// The map with them, each in an equation of its own.
    pub extended: &'a [i32],
    /// The equations of the other map.
    pub equations: usize,
    /// The other map.
    pub other: &'a [i32],
    /// For each of its equations how often it is taken, and each of the extended map.
    pub onto: &'a [i64],
    /// For each equation of the extended map how often it is taken, and each of the other one.
    pub back: &'a [i64],
    /// For each further unknown how often its equation is taken, and each of the map.
    pub above: &'a [i64],
}

/// `dezgula_engine_reformulates`: whether the numbers show it.
pub fn engine_reformulates(m: Map, by: Reformulation) -> Answer {
    let lent = sys::dezgula_reformulation {
        further: by.further,
        extended: by.extended.as_ptr(),
        extended_len: by.extended.len(),
        equations: by.equations,
        other: by.other.as_ptr(),
        other_len: by.other.len(),
        onto: by.onto.as_ptr(),
        onto_len: by.onto.len(),
        back: by.back.as_ptr(),
        back_len: by.back.len(),
        above: by.above.as_ptr(),
        above_len: by.above.len(),
    };
    // SAFETY: the pointers are those of slices, with their lengths, and live as long as the call, which writes nothing.
    Answer(unsafe { sys::dezgula_engine_reformulates(&m.lent(), &lent) })
}

/// `dezgula_engine_project`: the first q numbers of each row of q and `further` numbers.
pub fn engine_project(q: usize, further: usize, list: Found, out: &mut [u32]) -> Answer {
    // SAFETY: as for the questions.
    Answer(unsafe { sys::dezgula_engine_project(q, further, &list.lent(), out.as_mut_ptr(), out.len()) })
}

/// `dezgula_listing`: the list of a single-file map as text.
pub fn listing(m: Map, list: Found, out: &mut [u8]) -> Answer {
    // SAFETY: as for the questions; a char of C has the size of a byte.
    Answer(unsafe { sys::dezgula_listing(&m.lent(), &list.lent(), out.as_mut_ptr().cast::<c_char>(), out.len()) })
}

// ---- up to eight runs at a time

/// `dezgula_dispatch`: turns of `quantum` steps. Each share has its parts of the three tables.
pub fn dispatch(shares: &[Share], coefs: &[i32], stack: &mut [u32], list: &mut [u32], round: &mut Round, quantum: u64, turns: u64) -> Answer {
    let tables = sys::dezgula_tables {
        coefs: coefs.as_ptr(),
        coefs_len: coefs.len(),
        stack: stack.as_mut_ptr(),
        stack_len: stack.len(),
        list: list.as_mut_ptr(),
        list_len: list.len(),
    };
    // SAFETY: the pointers are those of slices, with their lengths, and live as long as the call; parts that leave a table are refused, and what it may write is
    // borrowed exclusively.
    Answer(unsafe { sys::dezgula_dispatch(shares.as_ptr(), shares.len(), &tables, round, quantum, turns) })
}

// ---- texts and files

/// How many coefficients hold those of every system that is read.
pub const MAP_COEFFICIENTS: usize = 128;
/// How many right sides hold those of every system that is read.
pub const MAP_RIGHTS: usize = 8;

/// What a read system has: p and q. Its pointer is not looked at, for the caller knows the table.
fn unread() -> sys::dezgula_system {
    sys::dezgula_system { p: 0, q: 0, coefs: std::ptr::null(), coefs_len: 0 }
}

/// `dezgula_read_map`. Read: also p and q, else 0.
pub fn read_map(text: &[u8], coefs: &mut [i32; MAP_COEFFICIENTS]) -> (Answer, usize, usize) {
    let mut system = unread();
    // SAFETY: the text is a slice with its length; the table has as many places as the call writes at most; both numbers are borrowed exclusively.
    let answer = unsafe { sys::dezgula_read_map(text.as_ptr().cast::<c_char>(), text.len(), coefs.as_mut_ptr(), &mut system) };
    (Answer(answer), system.p, system.q)
}

/// `dezgula_read_equation`.
pub fn read_equation(text: &[u8], q: usize, row: &mut [i32], right: &mut i32) -> Answer {
    // SAFETY: the pointers are those of slices, with their lengths, and live as long as the call; what it may write is borrowed exclusively.
    Answer(unsafe { sys::dezgula_read_equation(text.as_ptr().cast::<c_char>(), text.len(), q, row.as_mut_ptr(), row.len(), right) })
}

/// `dezgula_write_equation`.
pub fn write_equation(q: usize, row: &[i32], right: i32, out: &mut [u8]) -> Answer {
    // SAFETY: as above.
    Answer(unsafe { sys::dezgula_write_equation(q, row.as_ptr(), row.len(), right, out.as_mut_ptr().cast::<c_char>(), out.len()) })
}

/// `dezgula_read_system`. `within` is written where a line is refused.
pub fn read_system(text: &[u8], q: usize, coefs: &mut [i32], rights: &mut [i32], within: &mut u64) -> Answer {
    let mut system = unread();
    let text_begin = text.as_ptr().cast::<c_char>();
    let (coefs_begin, rights_begin) = (coefs.as_mut_ptr(), rights.as_mut_ptr());
    // SAFETY: as above.
    Answer(unsafe { sys::dezgula_read_system(text_begin, text.len(), q, coefs_begin, coefs.len(), rights_begin, rights.len(), &mut system, within) })
}

/// `dezgula_write_list`.
pub fn write_list(m: Map, list: Found, ending: u32, out: &mut [u8]) -> Answer {
    // SAFETY: as above.
    Answer(unsafe { sys::dezgula_write_list(&m.lent(), &list.lent(), ending, out.as_mut_ptr(), out.len()) })
}

/// What a file of a list has in its first block.
#[derive(Clone, Copy, Debug, Default, PartialEq, Eq)]
pub struct FileHead {
    /// Equations.
    pub p: usize,
    /// Unknowns.
    pub q: usize,
    /// Rows.
    pub found: usize,
    /// 0 is complete, 1 paused.
    pub ending: u32,
}

/// `dezgula_read_list`. `head` is written where the file is read.
pub fn read_list(file: &[u8], coefs: &mut [i32], rows: &mut [u32], head: &mut FileHead) -> Answer {
    let (mut system, mut ending) = (unread(), 0);
    let mut list = sys::dezgula_list { rows: std::ptr::null(), rows_len: 0, found: 0 };
    let (coefs_begin, rows_begin) = (coefs.as_mut_ptr(), rows.as_mut_ptr());
    // SAFETY: as above.
    let answer = Answer(unsafe {
        sys::dezgula_read_list(file.as_ptr(), file.len(), coefs_begin, coefs.len(), rows_begin, rows.len(), &mut system, &mut list, &mut ending)
    });
    if answer.number() == crate::numbers::LIST_READ {
        *head = FileHead { p: system.p, q: system.q, found: list.found, ending };
    }
    answer
}

// ---- the engine

/// What a run of the engine is lent, and its record; the header says what each table is. Room is for as many rows as all tables have.
#[derive(Debug)]
pub struct EngineLent<'a> {
    /// The working system.
    pub equations: &'a mut [i32],
    /// Rows of q numbers.
    pub basis: &'a mut [u32],
    /// One number a row of the basis, the calls' own.
    pub sizes: &'a mut [u32],
    /// Rows of q numbers: those of the stage under way.
    pub table: &'a mut [u32],
    /// One number a row of the table, the calls' own.
    pub values: &'a mut [i64],
    /// The same.
    pub words: &'a mut [u64],
    /// The same.
    pub degrees: &'a mut [u32],
    /// The same.
    pub marks: &'a mut [u64],
    /// One number a row of the table, which only saves time.
    pub mothers: &'a mut [u32],
    /// A start sets it; until then it may hold anything.
    pub record: &'a mut EngineRecord,
}

impl EngineLent<'_> {
    fn lent(&mut self) -> sys::dezgula_engine_run {
        sys::dezgula_engine_run {
            equations: self.equations.as_mut_ptr(),
            equations_len: self.equations.len(),
            basis: self.basis.as_mut_ptr(),
            basis_len: self.basis.len(),
            sizes: self.sizes.as_mut_ptr(),
            sizes_len: self.sizes.len(),
            table: self.table.as_mut_ptr(),
            table_len: self.table.len(),
            values: self.values.as_mut_ptr(),
            values_len: self.values.len(),
            words: self.words.as_mut_ptr(),
            words_len: self.words.len(),
            degrees: self.degrees.as_mut_ptr(),
            degrees_len: self.degrees.len(),
            marks: self.marks.as_mut_ptr(),
            marks_len: self.marks.len(),
            mothers: self.mothers.as_mut_ptr(),
            mothers_len: self.mothers.len(),
            record: *self.record,
        }
    }
}

/// The calls on a run of the engine.
macro_rules! on_engine {
    ($($(#[$doc:meta])* $name:ident: $call:ident($($handed:ident: $type:ty),*) $(after $($given:ident: $lent:ty => $first:expr),+)?;)*) => {$(
        $(#[$doc])*
        pub fn $name($($($given: $lent,)+)? run: &mut EngineLent $(, $handed: $type)*) -> Answer {
            let mut lent = run.lent();
            // SAFETY: the pointers of the run, of a system and of a list are those of slices, with their lengths, and live as long as the call; what it may write
            // is borrowed exclusively, so that it lies apart from all else.
            let answer = unsafe { sys::$call($($($first,)+)? &mut lent $(, $handed)*) };
            *run.record = lent.record;
            Answer(answer)
        }
    )*};
}

on_engine! {
    /// `dezgula_engine_start`.
    engine_start: dezgula_engine_start() after m: Map => &m.lent();
    /// `dezgula_engine_start_from`: the rows of the list, and further equations.
    engine_start_from: dezgula_engine_start_from() after m: Map => &m.lent(), list: Found => &list.lent();
    /// `dezgula_engine_combine`: equation r becomes u times itself plus t times equation s.
    engine_combine: dezgula_engine_combine(r: usize, u: i32, s: usize, t: i32) after p: usize => p, q: usize => q;
    /// `dezgula_engine_take`: begins the stage of equation e, without the unknown f; with f = q, with all.
    engine_take: dezgula_engine_take(e: usize, f: usize) after p: usize => p, q: usize => q;
    /// `dezgula_engine_resume`.
    engine_resume: dezgula_engine_resume(budget: u64) after p: usize => p, q: usize => q;
}
