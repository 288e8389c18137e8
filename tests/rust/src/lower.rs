//! Runs from a lower bound: the calls, and the same in plain Rust straight from document 02, Job 4.

use crate::draw::{self, Draw};
use crate::library::told;
use crate::sides::{Lent, COUNTS};
use crate::words;
use crate::{Answer, System, BEFORE, DEEPEST, HEIGHT, KIND, STEPS};
use dezgula::calls;

/// A map and a lower bound, as every call on a run is handed them. Nothing here says that they are in order.
#[derive(Clone, Debug, PartialEq, Eq)]
pub struct Bounded {
    pub map: System,
    pub lower: Vec<u32>,
}

/// The kind that a record tells: the walk under way.
pub const PLAIN_WALK: u64 = 2;
pub const WALK_ABOVE: u64 = 3;

/// The list of the walk above the lower bound, and that of the plain walk, among those lent.
pub const LIST: usize = 0;
pub const SECOND_LIST: usize = 1;

/// Tables for q unknowns with room for so many rows in each list, and no zeros in them.
pub fn blank(q: usize, rooms: [usize; 2]) -> Lent {
    Lent { stack: vec![0xa5a5_a5a5; q * (q + 1) + 3], ..Lent::blank(q, rooms) }
}

// ---- the library's calls

const REFUSALS: [u8; 11] = [1, 2, 3, 4, 5, 6, 7, 8, 11, 12, 14];

pub fn start(m: &Bounded, s: &mut Lent) -> Answer {
    told(s.on(|lent| calls::start_from(m.map.map(), &m.lower, lent), |w| words::start_from(m.map.map(), &m.lower, w)), &REFUSALS)
}

pub fn resume(m: &Bounded, s: &mut Lent, budget: u64) -> Answer {
    told(s.on(|lent| calls::resume_from(m.map.map(), &m.lower, lent, budget), |w| words::resume_from(m.map.map(), &m.lower, w, budget)), &REFUSALS)
}

// ---- the same in plain Rust

pub mod model {
    use super::{Bounded, LIST, PLAIN_WALK, SECOND_LIST, WALK_ABOVE};
    use crate::sides::{Lent, COUNTS};
    use crate::{Answer, BEFORE, DEEPEST, HEIGHT, KIND, STEPS, WORDS};

    const COMPONENT_LIMIT: u32 = 1_000_000;
    const STEP_LIMIT: u64 = 1_000_000_000_000;
    const SUM_LIMIT: u64 = 16_000_000;

    type Check = Result<(), Answer>;

    fn refuse_if(condition: bool, number: u8) -> Check {
        if condition {
            Err(Answer::refused(number))
        } else {
            Ok(())
        }
    }

    // ---- before the walk

    /// 1 to 5, which both calls check.
    fn check_shape(m: &Bounded, s: &Lent) -> Check {
        let (p, q) = (m.map.p, m.map.q);
        refuse_if(!(1..=8).contains(&p), 1)?;
        refuse_if(!(1..=16).contains(&q), 2)?;
        refuse_if(m.map.coefs.len() != p * q, 3)?;
        refuse_if(s.stack.len() < q * (q + 1), 4)?;
        refuse_if(m.lower.len() != q, 5)
    }

    fn check_record(s: &Lent) -> Check {
        refuse_if(s.record.len() != WORDS, 6)
    }

    fn at_or_below(a: &[u32], b: &[u32]) -> bool {
        a.iter().zip(b).all(|(x, y)| x <= y)
    }

    fn room(m: &Bounded, s: &Lent, at: usize) -> u64 {
        (s.lists[at].len() / m.map.q) as u64
    }

    /// "6 covers each list's count and each walk's steps, a floor-walk row not at or above the floor, and a record of another kind."
    fn check_order(m: &Bounded, s: &Lent) -> Check {
        check_record(s)?;
        let (q, r) = (m.map.q, &s.record);
        refuse_if(r[KIND] != PLAIN_WALK && r[KIND] != WALK_ABOVE, 6)?;
        refuse_if(r[HEIGHT] > q as u64 || r[STEPS] > STEP_LIMIT || r[BEFORE] > STEP_LIMIT || r[DEEPEST] > SUM_LIMIT, 6)?;
        refuse_if([LIST, SECOND_LIST].iter().any(|&at| r[COUNTS[at]] > room(m, s, at)), 6)?;
        for (k, row) in s.stack.chunks(q + 1).take(r[HEIGHT] as usize).enumerate() {
            let (tuple, marks) = (&row[..q], row[q]);
            refuse_if(tuple.iter().any(|&x| x > COMPONENT_LIMIT), 6)?;
            refuse_if(u64::from(marks) >> q != 0 || marks.count_ones() as usize != k, 6)?;
            refuse_if(r[KIND] == WALK_ABOVE && !at_or_below(&m.lower, tuple), 6)?;
        }
        Ok(())
    }

    /// 7 and 8.
    fn check_ranges(m: &Bounded) -> Check {
        if let Some(place) = m.map.coefs.iter().position(|c| !(-10_000..=10_000).contains(c)) {
            return Err(Answer::Refused { number: 7, value: place + 1 });
        }
        refuse_if(m.lower.iter().any(|&x| x > COMPONENT_LIMIT), 8)
    }

    // ---- the start

    fn write_row(q: usize, s: &mut Lent, k: usize, tuple: &[u32], marks: u32) {
        s.stack[k * (q + 1)..][..q].copy_from_slice(tuple);
        s.stack[k * (q + 1) + q] = marks;
    }

    /// "The start writes as a plain one."
    fn try_start(m: &Bounded, s: &mut Lent) -> Check {
        check_shape(m, s)?;
        check_record(s)?;
        check_ranges(m)?;
        for k in 0..m.map.q {
            let unit: Vec<u32> = (0..m.map.q).map(|j| u32::from(j == k)).collect();
            write_row(m.map.q, s, k, &unit, (1 << k) - 1);
        }
        s.record = vec![m.map.q as u64, 0, 0, PLAIN_WALK, 0, 0, 0];
        Ok(())
    }

    pub fn start(m: &Bounded, s: &mut Lent) -> Answer {
        try_start(m, s).err().unwrap_or(Answer::Started)
    }

    // ---- one step of the walk under way

    fn image(m: &Bounded, tuple: &[u32]) -> Vec<i64> {
        m.map.coefs.chunks(m.map.q).map(|row| row.iter().zip(tuple).map(|(&c, &x)| i64::from(c) * i64::from(x)).sum()).collect()
    }

    fn falls(m: &Bounded, image: &[i64], j: usize) -> bool {
        image.iter().enumerate().map(|(i, y)| y * i64::from(m.map.coefs[i * m.map.q + j])).sum::<i64>() < 0
    }

    /// "then drops a child also when child minus floor is at or above a row of that list"
    fn stopped(m: &Bounded, s: &Lent, own: usize, child: &[u32]) -> bool {
        let covered = |at: usize, x: &[u32]| s.rows(m.map.q, at).iter().any(|row| at_or_below(row, x));
        let excess = || child.iter().zip(&m.lower).map(|(x, l)| x - l).collect::<Vec<u32>>();
        covered(own, child) || own == LIST && covered(SECOND_LIST, &excess())
    }

    fn step(m: &Bounded, s: &mut Lent) -> Check {
        let (own, steps) = if s.record[KIND] == PLAIN_WALK { (SECOND_LIST, BEFORE) } else { (LIST, STEPS) };
        refuse_if(s.record[steps] == STEP_LIMIT, 14)?;
        let (q, level) = (m.map.q, s.record[HEIGHT] as usize - 1);
        let row = s.stack[level * (q + 1)..][..q + 1].to_vec();
        let (top, marks) = (&row[..q], row[q]);
        let image = image(m, top);
        let mut made = Vec::new();
        if image.iter().all(|&y| y == 0) {
            let count = s.record[COUNTS[own]];
            refuse_if(count == room(m, s, own), 11)?;
            s.lists[own][count as usize * q..][..q].copy_from_slice(top);
            s.record[COUNTS[own]] += 1;
        } else {
            let mut frozen = marks;
            for j in 0..q {
                let mut child = top.to_vec();
                child[j] += 1;
                if marks >> j & 1 == 0 && falls(m, &image, j) && !stopped(m, s, own, &child) {
                    made.push((child, frozen));
                    frozen |= 1 << j;
                }
            }
            refuse_if(made.iter().any(|(child, _)| child.iter().any(|&x| x > COMPONENT_LIMIT)), 12)?;
        }
        for (n, (child, frozen)) in made.iter().enumerate() {
            write_row(q, s, level + n, child, *frozen);
        }
        s.record[HEIGHT] = (level + made.len()) as u64;
        s.record[steps] += 1;
        if own == LIST {
            s.record[DEEPEST] = s.record[DEEPEST].max(top.iter().map(|&x| u64::from(x)).sum());
        }
        Ok(())
    }

    // ---- the continuing call

    /// "At its height 0, ahead of the allowance, the floor row is written and no count changed."
    fn settle(m: &Bounded, s: &mut Lent) {
        if s.record[KIND] == PLAIN_WALK && s.record[HEIGHT] == 0 {
            write_row(m.map.q, s, 0, &m.lower, 0);
            s.record[KIND] = WALK_ABOVE;
            s.record[HEIGHT] = 1;
        }
    }

    fn try_resume(m: &Bounded, s: &mut Lent, budget: u64) -> Result<Answer, Answer> {
        check_shape(m, s)?;
        check_order(m, s)?;
        check_ranges(m)?;
        let mut left = budget;
        loop {
            settle(m, s);
            if s.record[HEIGHT] == 0 {
                return Ok(Answer::Complete);
            }
            if left == 0 {
                return Ok(Answer::Paused);
            }
            step(m, s)?;
            left -= 1;
        }
    }

    pub fn resume(m: &Bounded, s: &mut Lent, budget: u64) -> Answer {
        try_resume(m, s, budget).unwrap_or_else(|refusal| refusal)
    }
}

// ---- drawn ones

/// A map of any size and a lower bound for it, in order: small, near a solution's size, large, or at the end of the range.
pub fn any_bounded(d: &mut Draw) -> Bounded {
    let map = draw::any_system(d);
    let kind = d.between(0, 4);
    let lower = (0..map.q).map(|_| match kind {
        0 => d.of(&[0, 0, 0, 1]),
        1 | 2 => d.of(&[0, 0, 1, 2, 3, 5]),
        3 => d.between(0, 1_000_000) as u32,
        _ => d.of(&[1_000_000, 999_999, 999_998, 0]),
    });
    let lower = lower.collect();
    Bounded { map, lower }
}

/// Spoils a map or its lower bound in one way.
pub fn damage_bounded(d: &mut Draw, m: &mut Bounded) {
    match d.between(0, 4) {
        0 => m.lower.truncate(d.between(0, m.lower.len())),
        1 => m.lower.push(1),
        2 => {
            let place = d.between(0, m.lower.len());
            let wrong = d.of(&[1_000_001, 1 << 31, u32::MAX]);
            if let Some(x) = m.lower.get_mut(place) {
                *x = wrong;
            }
        }
        _ => draw::damage_system(d, &mut m.map),
    }
}

/// Tables and a record that are in order for a map and its lower bound, with either walk under way: any run could have left them, or none.
pub fn state(d: &mut Draw, m: &Bounded) -> Lent {
    let q = m.map.q;
    let plain = draw::state(d, q);
    let (mut stack, mut record) = (plain.stack, plain.record);
    let lists = [draw::state(d, q).list, draw::state(d, q).list];
    record[KIND] = d.of(&[PLAIN_WALK, WALK_ABOVE]);
    record[BEFORE] = draw::state(d, q).record[STEPS];
    for at in [LIST, SECOND_LIST] {
        record[COUNTS[at]] = d.between(0, lists[at].len() / q) as u64;
    }
    if record[KIND] == WALK_ABOVE {
        let near = d.one_in(2);
        for row in stack.chunks_mut(q + 1).take(q) {
            for (x, &l) in row.iter_mut().zip(&m.lower) {
                *x = if near { (l + d.between(0, 3) as u32).min(1_000_000) } else { (*x).max(l) };
            }
        }
    }
    Lent { stack, lists, record }
}

/// Spoils a state in one way.
pub fn damage_state(d: &mut Draw, q: usize, s: &mut Lent) {
    let at = d.between(0, 1);
    let room = (s.lists[at].len() / q) as u64;
    let (place, word) = match d.between(0, 9) {
        0 => (HEIGHT, d.of(&[q as u64 + 1, q as u64 + 2, u64::MAX])),
        1 => (COUNTS[at], d.of(&[room + 1, room + 2, u64::MAX])),
        2 => (STEPS, d.of(&[1_000_000_000_001, u64::MAX])),
        3 => (BEFORE, d.of(&[1_000_000_000_001, u64::MAX])),
        4 => (KIND, d.of(&[0, 1, 2, 3, 4, 5, 258, 1 << 32, u64::MAX])),
        5 => (DEEPEST, d.of(&[16_000_001, 1 << 32, u64::MAX])),
        6 => return s.stack.truncate(d.between(0, q * (q + 1))),
        7 => return s.lists[at].truncate(d.between(0, s.lists[at].len())),
        8 => return s.record.resize(d.of(&[0, 1, 6, 8, 42]), 0),
        _ => {
            let place = d.between(0, q * (q + 1));
            let wrong = d.of(&[0, 1, 1_000_001, 1 << 16, 1 << 31, u32::MAX]);
            if let Some(x) = s.stack.get_mut(place) {
                *x = wrong;
            }
            return;
        }
    };
    if s.record.len() > place {
        s.record[place] = word;
    }
}
