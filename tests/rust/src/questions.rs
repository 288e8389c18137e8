//! Why a tuple is not in a list, and what it is made of (document 02, Jobs 8 and 13): the calls, and the same in plain Rust. Those for the engine's maps differ by
//! the most equations and unknowns.

use crate::System;
use dezgula::calls::{self, Found};

/// The reasons, equations and places from 1; a refusal has its number, and 7 its place.
#[derive(Clone, Copy, Debug, PartialEq, Eq, PartialOrd, Ord)]
pub enum Reason {
    Zero,
    Off(usize, i64),
    Stands(usize),
    Above(usize),
    Unlisted,
    Refused(u64, usize),
}

/// What a tuple is made of, or why it is not told.
#[derive(Clone, Copy, Debug, PartialEq, Eq, PartialOrd, Ord)]
pub enum Parts {
    Made,
    Unlisted,
    NoSpace,
    Not(Reason),
}

/// What the number lent for an amount holds before a call.
const HELD: i64 = 77;

/// The most equations and unknowns that are asked about.
pub type Most = (usize, usize);
pub const WALK: Most = (8, 16);
pub const ENGINE: Most = (32, 32);

pub fn reason(most: Most, m: &System, list: &[u32], found: usize, tuple: &[u32]) -> Reason {
    let (call, mut amount) = (if most == WALK { calls::reason } else { calls::engine_reason }, HELD);
    let answer = call(m.map(), Found { rows: list, found }, tuple, &mut amount);
    decode(answer, amount)
}

fn decode(answer: dezgula::Answer, amount: i64) -> Reason {
    let (number, place) = (u64::from(answer.number()), answer.place() as usize);
    assert!(number == 121 || amount == HELD, "an amount is written for 121 alone, not for {number}");
    match number {
        120 => Reason::Zero,
        121 => Reason::Off(place, amount),
        122 => Reason::Stands(place),
        123 => Reason::Above(place),
        124 => Reason::Unlisted,
        _ => Reason::Refused(number, place),
    }
}

pub fn decompose(most: Most, m: &System, list: &[u32], found: usize, tuple: &[u32], times: &mut [u32]) -> Parts {
    let (call, mut amount) = (if most == WALK { calls::decompose } else { calls::engine_decompose }, HELD);
    let answer = call(m.map(), Found { rows: list, found }, tuple, times, &mut amount);
    match answer.number() {
        125 => Parts::Made,
        124 => Parts::Unlisted,
        29 => Parts::NoSpace,
        _ => Parts::Not(decode(answer, amount)),
    }
}

// ---- the same from the document

fn refusal(most: Most, m: &System, list: &[u32], found: usize, tuple: &[u32]) -> Option<(u64, usize)> {
    if !(1..=most.0).contains(&m.p) {
        return Some((1, 0));
    }
    if !(1..=most.1).contains(&m.q) {
        return Some((2, 0));
    }
    if m.coefs.len() != m.p * m.q {
        return Some((3, 0));
    }
    if tuple.len() != m.q {
        return Some((5, 0));
    }
    if found > list.len() / m.q {
        return Some((6, 0));
    }
    if let Some(place) = m.coefs.iter().position(|c| c.abs() > 10_000) {
        return Some((7, place + 1));
    }
    tuple.iter().any(|&x| x > 1_000_000).then_some((8, 0))
}

fn at_or_below(row: &[u32], tuple: &[u32]) -> bool {
    row.iter().zip(tuple).all(|(a, b)| a <= b)
}

pub fn expected_reason(most: Most, m: &System, list: &[u32], found: usize, tuple: &[u32]) -> Reason {
    if let Some((number, place)) = refusal(most, m, list, found, tuple) {
        return Reason::Refused(number, place);
    }
    if tuple.iter().all(|&x| x == 0) {
        return Reason::Zero;
    }
    for (k, equation) in m.coefs.chunks(m.q).enumerate() {
        let amount: i64 = equation.iter().zip(tuple).map(|(&c, &x)| i64::from(c) * i64::from(x)).sum();
        if amount != 0 {
            return Reason::Off(k + 1, amount);
        }
    }
    let rows: Vec<&[u32]> = list.chunks(m.q).take(found).collect();
    if let Some(n) = rows.iter().rposition(|row| *row == tuple) {
        return Reason::Stands(n + 1);
    }
    rows.iter().rposition(|row| at_or_below(row, tuple)).map_or(Reason::Unlisted, |n| Reason::Above(n + 1))
}

/// Each row is taken off one at a time, as long as it goes, the last row first; a row of zeros never goes.
pub fn expected_parts(most: Most, m: &System, list: &[u32], found: usize, tuple: &[u32], times: &mut [u32]) -> Parts {
    if let why @ (Reason::Refused(..) | Reason::Off(..)) = expected_reason(most, m, list, found, tuple) {
        return Parts::Not(why);
    }
    if times.len() < found {
        return Parts::NoSpace;
    }
    let mut rest = tuple.to_vec();
    for (n, row) in list.chunks(m.q).take(found).enumerate().rev() {
        times[n] = 0;
        while row.iter().any(|&x| x != 0) && at_or_below(row, &rest) {
            rest.iter_mut().zip(row).for_each(|(x, r)| *x -= r);
            times[n] += 1;
        }
    }
    if rest.iter().all(|&x| x == 0) {
        Parts::Made
    } else {
        Parts::Unlisted
    }
}
