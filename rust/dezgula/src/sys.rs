//! The library's calls as they are exported, with the names and structs of its headers. What each needs of what it is handed, and what it writes, is said there;
//! [`crate::calls`] has the same calls over slices.
//!
//! Every function here is unsafe to call: its pointers are those that its header asks for, with the lengths beside them, and what a call may write lies apart from
//! all else that it is lent. What tables and records hold may be anything.
#![allow(non_camel_case_types, missing_docs, clippy::missing_safety_doc)]

use std::marker::{PhantomData, PhantomPinned};
use std::os::raw::{c_char, c_uint, c_void};

/// A system, whose coefficients stand elsewhere.
#[repr(C)]
#[derive(Clone, Copy, Debug)]
pub struct dezgula_system {
    pub p: usize,
    pub q: usize,
    pub coefs: *const i32,
    pub coefs_len: usize,
}

/// The run record. Its two counts are structs of one number in C, which are laid out as the number.
#[repr(C)]
#[derive(Clone, Copy, Debug, Default, PartialEq, Eq)]
pub struct dezgula_record {
    pub height: u64,
    pub found: u64,
    pub steps: u64,
    pub kind: u64,
    pub second: u64,
    pub before: u64,
    pub deepest: u64,
}

/// What a run is lent, and its record.
#[repr(C)]
#[derive(Clone, Copy, Debug)]
pub struct dezgula_run {
    pub stack: *mut u32,
    pub stack_len: usize,
    pub list: *mut u32,
    pub list_len: usize,
    pub second: *mut u32,
    pub second_len: usize,
    pub record: dezgula_record,
}

/// Rows where they stand: the first `found` of a table.
#[repr(C)]
#[derive(Clone, Copy, Debug)]
pub struct dezgula_list {
    pub rows: *const u32,
    pub rows_len: usize,
    pub found: usize,
}

/// A part of a table: where it begins, from 0, and how many numbers it has.
#[repr(C)]
#[derive(Clone, Copy, Debug, Default, PartialEq, Eq)]
pub struct dezgula_part {
    pub start: usize,
    pub size: usize,
}

/// What a run in turns goes by: its system, whose coefficients are a part of one table, and its parts of one stack and one list.
#[repr(C)]
#[derive(Clone, Copy, Debug, Default, PartialEq, Eq)]
pub struct dezgula_share {
    pub p: usize,
    pub q: usize,
    pub coefs: dezgula_part,
    pub stack: dezgula_part,
    pub list: dezgula_part,
}

/// The tables of which each run in turns has its part.
#[repr(C)]
#[derive(Clone, Copy, Debug)]
pub struct dezgula_tables {
    pub coefs: *const i32,
    pub coefs_len: usize,
    pub stack: *mut u32,
    pub stack_len: usize,
    pub list: *mut u32,
    pub list_len: usize,
}

/// The record of a run in turns, and what it answered in the last call.
#[repr(C)]
#[derive(Clone, Copy, Debug, Default, PartialEq, Eq)]
pub struct dezgula_turn {
    pub record: dezgula_record,
    pub answer: u64,
}

/// The dispatcher's record: the run served last, from 1, and 0 at first; the steps that the runs took in the last call; and the runs.
#[repr(C)]
#[derive(Clone, Copy, Debug, Default, PartialEq, Eq)]
pub struct dezgula_round {
    pub last: u64,
    pub steps: u64,
    pub runs: [dezgula_turn; 8],
}

/// The record of a run of the engine.
#[repr(C)]
#[derive(Clone, Copy, Debug, Default, PartialEq, Eq)]
pub struct dezgula_engine_record {
    pub done: u32,
    pub equation: u64,
    pub fresh: u64,
    pub count: u64,
    pub rows: u64,
    pub taken: u64,
    pub degree: u64,
    pub upper: u64,
    pub lower: u64,
    pub steps: u64,
    pub cap: u64,
}

/// What a run of the engine is lent, and its record.
#[repr(C)]
#[derive(Clone, Copy, Debug)]
pub struct dezgula_engine_run {
    pub equations: *mut i32,
    pub equations_len: usize,
    pub basis: *mut u32,
    pub basis_len: usize,
    pub sizes: *mut u32,
    pub sizes_len: usize,
    pub table: *mut u32,
    pub table_len: usize,
    pub values: *mut i64,
    pub values_len: usize,
    pub words: *mut u64,
    pub words_len: usize,
    pub degrees: *mut u32,
    pub degrees_len: usize,
    pub marks: *mut u64,
    pub marks_len: usize,
    pub mothers: *mut u32,
    pub mothers_len: usize,
    pub record: dezgula_engine_record,
}

/// A solver, which only the library looks into.
#[repr(C)]
#[derive(Debug)]
pub struct dezgula_solver {
    _own: [u8; 0],
    _neither_sent_nor_shared: PhantomData<(*mut u8, PhantomPinned)>,
}

/// What shows that another map has the same minimal solutions.
#[repr(C)]
#[derive(Clone, Copy, Debug)]
pub struct dezgula_reformulation {
    pub further: usize,
    pub extended: *const i32,
    pub extended_len: usize,
    pub equations: usize,
    pub other: *const i32,
    pub other_len: usize,
    pub onto: *const i64,
    pub onto_len: usize,
    pub back: *const i64,
    pub back_len: usize,
    pub above: *const i64,
    pub above_len: usize,
}

/// How far a solver is.
#[repr(C)]
#[derive(Clone, Copy, Debug, Default, PartialEq, Eq)]
pub struct dezgula_solver_progress {
    pub done: usize,
    pub equations: usize,
    pub rows: u64,
    pub steps: u64,
}

extern "C" {
    pub fn dezgula_version() -> *const c_char;
    pub fn dezgula_number(answer: u64) -> c_uint;
    pub fn dezgula_place(answer: u64) -> u64;
    pub fn dezgula_sentence(answer: u64) -> *const c_char;

    pub fn dezgula_start(system: *const dezgula_system, run: *mut dezgula_run) -> u64;
    pub fn dezgula_resume(system: *const dezgula_system, run: *mut dezgula_run, budget: u64) -> u64;
    pub fn dezgula_start_single_file(system: *const dezgula_system, run: *mut dezgula_run) -> u64;
    pub fn dezgula_resume_single_file(system: *const dezgula_system, run: *mut dezgula_run, budget: u64) -> u64;
    pub fn dezgula_start_rights(system: *const dezgula_system, rights: *const i32, rights_len: usize, run: *mut dezgula_run) -> u64;
    pub fn dezgula_resume_rights(system: *const dezgula_system, rights: *const i32, rights_len: usize, run: *mut dezgula_run, budget: u64) -> u64;
    pub fn dezgula_start_from(system: *const dezgula_system, lower: *const u32, lower_len: usize, run: *mut dezgula_run) -> u64;
    pub fn dezgula_resume_from(system: *const dezgula_system, lower: *const u32, lower_len: usize, run: *mut dezgula_run, budget: u64) -> u64;
    pub fn dezgula_start_training(system: *const dezgula_system, run: *mut dezgula_run) -> u64;
    pub fn dezgula_resume_training(system: *const dezgula_system, run: *mut dezgula_run, budget: u64) -> u64;
    pub fn dezgula_start_training_from(system: *const dezgula_system, lower: *const u32, lower_len: usize, run: *mut dezgula_run) -> u64;
    pub fn dezgula_resume_training_from(system: *const dezgula_system, lower: *const u32, lower_len: usize, run: *mut dezgula_run, budget: u64) -> u64;
    pub fn dezgula_start_desk(group: *const dezgula_system, generators: *const dezgula_list, run: *mut dezgula_run) -> u64;
    pub fn dezgula_resume_desk(group: *const dezgula_system, generators: *const dezgula_list, run: *mut dezgula_run, budget: u64) -> u64;

    pub fn dezgula_row(system: *const dezgula_system, run: *const dezgula_run, n: usize, out: *mut u32, out_len: usize) -> u64;
    pub fn dezgula_second_row(system: *const dezgula_system, run: *const dezgula_run, n: usize, out: *mut u32, out_len: usize) -> u64;
    pub fn dezgula_listed(run: *const dezgula_run) -> dezgula_list;
    pub fn dezgula_second_listed(run: *const dezgula_run) -> dezgula_list;
    pub fn dezgula_full_list(system: *const dezgula_system, run: *const dezgula_run) -> c_uint;

    pub fn dezgula_locate(system: *const dezgula_system, list: *const dezgula_list, tuple: *const u32, tuple_len: usize) -> u64;
    pub fn dezgula_reason(system: *const dezgula_system, list: *const dezgula_list, tuple: *const u32, tuple_len: usize, amount: *mut i64) -> u64;
    pub fn dezgula_decompose(
        system: *const dezgula_system,
        list: *const dezgula_list,
        tuple: *const u32,
        tuple_len: usize,
        times: *mut u32,
        times_len: usize,
        amount: *mut i64,
    ) -> u64;
    pub fn dezgula_listing(system: *const dezgula_system, list: *const dezgula_list, out: *mut c_char, out_len: usize) -> u64;

    pub fn dezgula_dispatch(
        shares: *const dezgula_share,
        count: usize,
        tables: *const dezgula_tables,
        round: *mut dezgula_round,
        quantum: u64,
        turns: u64,
    ) -> u64;

    pub fn dezgula_read_map(text: *const c_char, text_len: usize, coefs: *mut i32, system: *mut dezgula_system) -> u64;
    pub fn dezgula_read_equation(text: *const c_char, text_len: usize, q: usize, row: *mut i32, row_len: usize, right: *mut i32) -> u64;
    pub fn dezgula_write_equation(q: usize, row: *const i32, row_len: usize, right: i32, out: *mut c_char, out_len: usize) -> u64;
    pub fn dezgula_read_system(
        text: *const c_char,
        text_len: usize,
        q: usize,
        coefs: *mut i32,
        coefs_len: usize,
        rights: *mut i32,
        rights_len: usize,
        system: *mut dezgula_system,
        within: *mut u64,
    ) -> u64;
    pub fn dezgula_write_list(system: *const dezgula_system, list: *const dezgula_list, ending: u32, out: *mut u8, out_len: usize) -> u64;
    pub fn dezgula_read_list(
        file: *const u8,
        file_len: usize,
        coefs: *mut i32,
        coefs_len: usize,
        rows: *mut u32,
        rows_len: usize,
        system: *mut dezgula_system,
        list: *mut dezgula_list,
        ending: *mut u32,
    ) -> u64;

    pub fn dezgula_lent(table: *const c_void) -> *mut c_void;
    pub fn dezgula_lent_length(table: *const c_void, length: usize) -> usize;

    pub fn dezgula_engine_pack(record: dezgula_engine_record, words: *mut u64);
    pub fn dezgula_engine_unpack(words: *const u64) -> dezgula_engine_record;
    pub fn dezgula_engine_start(system: *const dezgula_system, run: *mut dezgula_engine_run) -> u64;
    pub fn dezgula_engine_start_sides(
        system: *const dezgula_system,
        rights: *const i32,
        rights_len: usize,
        lower: *const u32,
        lower_len: usize,
        run: *mut dezgula_engine_run,
    ) -> u64;
    pub fn dezgula_engine_start_from(system: *const dezgula_system, list: *const dezgula_list, run: *mut dezgula_engine_run) -> u64;
    pub fn dezgula_engine_combine(p: usize, q: usize, run: *mut dezgula_engine_run, r: usize, u: i32, s: usize, t: i32) -> u64;
    pub fn dezgula_engine_take(p: usize, q: usize, run: *mut dezgula_engine_run, e: usize, f: usize) -> u64;
    pub fn dezgula_engine_resume(p: usize, q: usize, run: *mut dezgula_engine_run, budget: u64) -> u64;
    pub fn dezgula_engine_locate(system: *const dezgula_system, list: *const dezgula_list, tuple: *const u32, tuple_len: usize) -> u64;
    pub fn dezgula_engine_reason(system: *const dezgula_system, list: *const dezgula_list, tuple: *const u32, tuple_len: usize, amount: *mut i64) -> u64;
    pub fn dezgula_engine_decompose(
        system: *const dezgula_system,
        list: *const dezgula_list,
        tuple: *const u32,
        tuple_len: usize,
        times: *mut u32,
        times_len: usize,
        amount: *mut i64,
    ) -> u64;
    pub fn dezgula_engine_reformulates(system: *const dezgula_system, by: *const dezgula_reformulation) -> u64;
    pub fn dezgula_engine_project(q: usize, further: usize, list: *const dezgula_list, out: *mut u32, out_len: usize) -> u64;

    pub fn dezgula_solver_new(system: *const dezgula_system, answer: *mut u64) -> *mut dezgula_solver;
    pub fn dezgula_solver_new_from(system: *const dezgula_system, list: *const dezgula_list, answer: *mut u64) -> *mut dezgula_solver;
    pub fn dezgula_solver_new_sides(system: *const dezgula_system, rights: *const i32, lower: *const u32, answer: *mut u64) -> *mut dezgula_solver;
    pub fn dezgula_solver_work(solver: *mut dezgula_solver, budget: u64) -> u64;
    pub fn dezgula_solver_limit(solver: *mut dezgula_solver, bytes: usize);
    pub fn dezgula_solver_told(solver: *const dezgula_solver) -> dezgula_solver_progress;
    pub fn dezgula_solver_system(solver: *const dezgula_solver) -> dezgula_system;
    pub fn dezgula_solver_rows(solver: *const dezgula_solver, count: *mut usize) -> *const u32;
    pub fn dezgula_solver_smallest(solver: *const dezgula_solver, count: *mut usize) -> *const u32;
    pub fn dezgula_solver_saved_length(solver: *const dezgula_solver) -> usize;
    pub fn dezgula_solver_save(solver: *const dezgula_solver, words: *mut u32);
    pub fn dezgula_solver_load(words: *const u32, length: usize, answer: *mut u64) -> *mut dezgula_solver;
    pub fn dezgula_solver_free(solver: *mut dezgula_solver);
}
