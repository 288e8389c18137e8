//! The proved functions of library/raw.h on a record as words, for what the crate's calls cannot hand over: a record of another length than its own.

use dezgula::calls::Map;
use dezgula::Answer;

/// What a run is lent: the stack, both lists, and the words of its record. Runs of one list leave the second alone.
pub struct Words<'a> {
    pub stack: &'a mut [u32],
    pub lists: [&'a mut [u32]; 2],
    pub record: &'a mut [u64],
}

/// The calls of a kind with one list, or with two: what they are handed besides the map, and the budget of one that goes on.
macro_rules! on_words {
    ($([$($at:tt)+] $name:ident: $raw:ident($($given:ident: $type:ty)?) $($budget:ident)?;)*) => {
        $(
            pub fn $name(m: Map, $($given: &[$type],)? w: &mut Words $(, $budget: u64)?) -> Answer {
                extern "C" {
                    fn $raw(
                        p: usize, q: usize, coefs: *const i32, coefs_len: usize, $($given: *const $type, _: usize,)? stack: *mut u32, stack_len: usize,
                        $(_: on_words!(table $at), _: usize,)+ record: *mut u64, record_len: usize $(, $budget: u64)?
                    ) -> u64;
                }
                // SAFETY: the pointers are those of slices, with their lengths, and live as long as the call; what it may write is borrowed exclusively.
                Answer(unsafe {
                    $raw(
                        m.p, m.q, m.coefs.as_ptr(), m.coefs.len(), $($given.as_ptr(), $given.len(),)? w.stack.as_mut_ptr(), w.stack.len(),
                        $(w.lists[$at].as_mut_ptr(), w.lists[$at].len(),)+ w.record.as_mut_ptr(), w.record.len() $(, $budget)?
                    )
                })
            }
        )*
    };
    (table $at:tt) => { *mut u32 };
}

on_words! {
    [0] start: dezgula_raw_start();
    [0] resume: dezgula_raw_resume() budget;
    [0] start_single_file: dezgula_raw_start_single_file();
    [0] resume_single_file: dezgula_raw_resume_single_file() budget;
    [0] start_training: dezgula_raw_start_training();
    [0] resume_training: dezgula_raw_resume_training() budget;
    [0] start_desk: dezgula_raw_start_desk(generators: u32);
    [0] resume_desk: dezgula_raw_resume_desk(generators: u32) budget;
    [0 1] start_rights: dezgula_raw_start_rights(rights: i32);
    [0 1] resume_rights: dezgula_raw_resume_rights(rights: i32) budget;
    [0 1] start_from: dezgula_raw_start_from(lower: u32);
    [0 1] resume_from: dezgula_raw_resume_from(lower: u32) budget;
    [0 1] start_training_from: dezgula_raw_start_training_from(lower: u32);
    [0 1] resume_training_from: dezgula_raw_resume_training_from(lower: u32) budget;
}

/// Turns of `quantum` steps on a dispatcher's record as words; eight words a share.
pub fn dispatch(count: usize, quantum: u64, turns: u64, shares: &[u64], coefs: &[i32], w: &mut Words) -> Answer {
    extern "C" {
        fn dezgula_raw_dispatch(
            count: usize,
            quantum: u64,
            turns: u64,
            shares: *const u64,
            shares_len: usize,
            coefs: *const i32,
            coefs_len: usize,
            stack: *mut u32,
            stack_len: usize,
            list: *mut u32,
            list_len: usize,
            round: *mut u64,
            round_len: usize,
        ) -> u64;
    }
    let ([list, _], stack, round) = (&mut w.lists, &mut w.stack, &mut w.record);
    let (list_begin, stack_begin, round_begin) = (list.as_mut_ptr(), stack.as_mut_ptr(), round.as_mut_ptr());
    let (shares_begin, coefs_begin) = (shares.as_ptr(), coefs.as_ptr());
    // SAFETY: as above.
    Answer(unsafe {
        dezgula_raw_dispatch(
            count,
            quantum,
            turns,
            shares_begin,
            shares.len(),
            coefs_begin,
            coefs.len(),
            stack_begin,
            stack.len(),
            list_begin,
            list.len(),
            round_begin,
            round.len(),
        )
    })
}
