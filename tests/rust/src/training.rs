//! The training seat: the calls, and what document 02, Job 9 says of them, in terms of the office's calls.

use crate::library::told;
use crate::lower::{self, Bounded};
use crate::sides::Lent;
use crate::words;
use crate::{library, Answer, State, System, HEIGHT};
use dezgula::calls;

/// "at most 6 unknowns and components up to 20"
pub const SEAT_UNKNOWNS: usize = 6;
pub const SEAT_LIMIT: u32 = 20;

const REFUSALS: [u8; 12] = [1, 2, 3, 4, 5, 6, 7, 8, 11, 14, 23, 24];

pub fn start(m: &System, s: &mut State) -> Answer {
    told(s.on(|lent| calls::start_training(m.map(), lent), |w| words::start_training(m.map(), w)), &REFUSALS)
}

pub fn resume(m: &System, s: &mut State, budget: u64) -> Answer {
    told(s.on(|lent| calls::resume_training(m.map(), lent, budget), |w| words::resume_training(m.map(), w, budget)), &REFUSALS)
}

pub fn start_from(m: &Bounded, s: &mut Lent) -> Answer {
    let (map, lower) = (m.map.map(), &m.lower);
    told(s.on(|lent| calls::start_training_from(map, lower, lent), |w| words::start_training_from(map, lower, w)), &REFUSALS)
}

pub fn resume_from(m: &Bounded, s: &mut Lent, budget: u64) -> Answer {
    let (map, lower) = (m.map.map(), &m.lower);
    told(s.on(|lent| calls::resume_training_from(map, lower, lent, budget), |w| words::resume_training_from(map, lower, w, budget)), &REFUSALS)
}

// ---- what the seat says, from what the office does

/// "23, more than 6 unknowns, straight after 2": the seat's own refusal, where 1 and 2 are not due.
fn refused_first(m: &System) -> Option<Answer> {
    ((1..=8).contains(&m.p) && (SEAT_UNKNOWNS + 1..=16).contains(&m.q)).then_some(Answer::refused(23))
}

/// Whether a row up to the height has a component that the seat does not take.
fn passes(q: usize, stack: &[u32], record: &[u64]) -> bool {
    stack.chunks(q + 1).take(record[HEIGHT] as usize).any(|row| row[..q].iter().any(|&x| x > SEAT_LIMIT))
}

/// "a floor above 20 is 8"
fn above(lower: &[u32]) -> bool {
    lower.iter().any(|&x| x > SEAT_LIMIT)
}

/// What a continuing call is handed and lent: its map, its lower bound or none, the office's call on the same tables, and the stack and record among these.
struct Office<'a, S> {
    map: &'a System,
    lower: &'a [u32],
    call: &'a dyn Fn(&mut S, u64) -> Answer,
    rows: fn(&S) -> (&[u32], &[u64]),
}

impl<S: Clone> Office<'_, S> {
    fn passes(&self, s: &S) -> bool {
        let (stack, record) = (self.rows)(s);
        passes(self.map.q, stack, record)
    }

    /// What the seat refuses before its walk and the office does not: "a row above 20 in a continued run is 6", ahead of 7; "a floor above 20 is 8", after it.
    fn refused(&self, before: &S, answer: Answer) -> Option<Answer> {
        match answer {
            Answer::Refused { number: 1..=6, .. } => None,
            _ if self.passes(before) => Some(Answer::refused(6)),
            Answer::Refused { number: 7, .. } => None,
            _ => above(self.lower).then_some(Answer::refused(8)),
        }
    }

    /// The seat's call: step by step as the office's, up to the step after which a row would pass 20: "24, a child would pass 20, in the place of 12".
    fn seat(&self, s: &mut S, budget: u64) -> Answer {
        if let Some(refusal) = refused_first(self.map) {
            return refusal;
        }
        let before = s.clone();
        let mut answer = (self.call)(s, 0);
        if let Some(refusal) = self.refused(&before, answer) {
            *s = before;
            return refusal;
        }
        for _ in 0..budget {
            if answer != Answer::Paused {
                break;
            }
            let stand = s.clone();
            answer = (self.call)(s, 1);
            if self.passes(s) {
                *s = stand;
                return Answer::refused(24);
            }
        }
        answer
    }
}

pub fn expected_start(m: &System, s: &mut State) -> Answer {
    refused_first(m).unwrap_or_else(|| library::start(m, s))
}

pub fn expected_resume(m: &System, s: &mut State, budget: u64) -> Answer {
    let office = Office { map: m, lower: &[], call: &|s: &mut State, n| library::resume(m, s, n), rows: |s| (&s.stack, &s.record) };
    office.seat(s, budget)
}

pub fn expected_start_from(m: &Bounded, s: &mut Lent) -> Answer {
    let before = s.clone();
    match refused_first(&m.map).unwrap_or_else(|| lower::start(m, s)) {
        Answer::Started if above(&m.lower) => {
            *s = before;
            Answer::refused(8)
        }
        answer => answer,
    }
}

pub fn expected_resume_from(m: &Bounded, s: &mut Lent, budget: u64) -> Answer {
    let office = Office { map: &m.map, lower: &m.lower, call: &|s: &mut Lent, n| lower::resume(m, s, n), rows: |s| (&s.stack, &s.record) };
    office.seat(s, budget)
}
