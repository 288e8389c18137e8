//! Maps with right sides: the calls, and the same in plain Rust straight from document 02, Job 1.

use crate::draw::{self, Draw};
use crate::library::{on, shown, told};
use crate::words::{self, Words};
use crate::{Answer, Shown, System, DEEPEST, FOUND, HEIGHT, KIND, SECOND, STEPS};
use dezgula::calls::{self, Map, Record};

/// A map with right sides. Nothing here says that it is in order.
#[derive(Clone, Debug, PartialEq, Eq)]
pub struct Sided {
    pub map: System,
    pub rights: Vec<i32>,
}

/// All that is lent to a call: the three tables and the run record.
#[derive(Clone, Debug, PartialEq, Eq)]
pub struct Lent {
    pub stack: Vec<u32>,
    pub lists: [Vec<u32>; 2],
    pub record: Vec<u64>,
}

/// The words that count the rows of the list at 0 and at 1.
pub const COUNTS: [usize; 2] = [FOUND, SECOND];

/// The kind of run that a record tells.
pub const CAPPED: u64 = 1;

impl Lent {
    /// Tables for q unknowns with room for so many rows in each list, and no zeros in them, so that a place written too many shows.
    pub fn blank(q: usize, rooms: [usize; 2]) -> Lent {
        let lists = [vec![0x5a5a_5a5a; rooms[0] * q + q / 2], vec![0x3c3c_3c3c; rooms[1] * q + q / 2]];
        Lent { stack: vec![0xa5a5_a5a5; (q + 1) * (q + 2) + 3], lists, record: vec![7, 8, 9, 10, 11, 12, u64::MAX] }
    }

    /// The rows of the list at 0 or at 1.
    pub fn rows(&self, q: usize, at: usize) -> Vec<Vec<u32>> {
        self.lists[at].chunks(q).take(self.record[COUNTS[at]] as usize).map(<[u32]>::to_vec).collect()
    }
}

// ---- the library's calls

impl Lent {
    pub fn on(&mut self, call: impl FnOnce(&mut calls::Lent) -> dezgula::Answer, raw: impl FnOnce(&mut Words) -> dezgula::Answer) -> dezgula::Answer {
        let [list, second] = &mut self.lists;
        on(Words { stack: &mut self.stack, lists: [list, second], record: &mut self.record }, call, raw)
    }
}

const REFUSALS: [u8; 10] = [1, 2, 3, 4, 6, 7, 11, 12, 14, 15];

pub fn start(m: &Sided, s: &mut Lent) -> Answer {
    told(s.on(|lent| calls::start_rights(m.map.map(), &m.rights, lent), |w| words::start_rights(m.map.map(), &m.rights, w)), &REFUSALS)
}

pub fn resume(m: &Sided, s: &mut Lent, budget: u64) -> Answer {
    told(s.on(|lent| calls::resume_rights(m.map.map(), &m.rights, lent, budget), |w| words::resume_rights(m.map.map(), &m.rights, w, budget)), &REFUSALS)
}

/// Row n of the list at 0 or at 1, which has `found` rows.
pub fn row(lists: &[Vec<u32>; 2], at: usize, q: usize, found: usize, n: usize, out: &mut [u32]) -> Shown {
    let [mut list, mut second] = lists.clone();
    let count = |own| if at == own { found as u64 } else { 0 };
    let mut record = Record { kind: CAPPED, found: count(0), second: count(1), ..Record::default() };
    let mut lent = calls::Lent { stack: &mut [], list: &mut list, second: &mut second, record: &mut record };
    let read = if at == 0 { calls::row } else { calls::second_row };
    shown(read(Map { p: 0, q, coefs: &[] }, &mut lent, n, out))
}

// ---- the same in plain Rust

pub mod model {
    use super::{Lent, Sided, CAPPED, COUNTS};
    use crate::{Answer, Shown, DEEPEST, HEIGHT, KIND, STEPS, WORDS};

    type Check = Result<(), Answer>;

    fn refuse_if(condition: bool, number: u8) -> Check {
        if condition {
            Err(Answer::refused(number))
        } else {
            Ok(())
        }
    }

    fn in_range(c: &i32) -> bool {
        (-10_000..=10_000).contains(c)
    }

    /// "q leaves the extra unknown out; 4, 6 and sums of components count it; 2 is given at 16 unknowns here; 3 also covers right sides not p in number"
    fn check_shape(m: &Sided, s: &Lent) -> Check {
        let (p, q) = (m.map.p, m.map.q);
        refuse_if(!(1..=8).contains(&p), 1)?;
        refuse_if(!(1..=15).contains(&q), 2)?;
        refuse_if(m.map.coefs.len() != p * q || m.rights.len() != p, 3)?;
        refuse_if(s.stack.len() < (q + 1) * (q + 2), 4)
    }

    fn check_record(s: &Lent) -> Check {
        refuse_if(s.record.len() != WORDS, 6)
    }

    /// "15, a right side out of range, comes after 7"
    fn check_ranges(m: &Sided) -> Check {
        if let Some(place) = m.map.coefs.iter().position(|c| !in_range(c)) {
            return Err(Answer::Refused { number: 7, value: place + 1 });
        }
        refuse_if(!m.rights.iter().all(in_range), 15)
    }

    fn room(m: &Sided, s: &Lent, at: usize) -> u64 {
        (s.lists[at].len() / m.map.q) as u64
    }

    fn check_order(m: &Sided, s: &Lent) -> Check {
        check_record(s)?;
        let r = &s.record;
        refuse_if(r[KIND] != CAPPED || r[HEIGHT] > m.map.q as u64 + 1 || r[STEPS] > 1_000_000_000_000 || r[DEEPEST] > 16_000_000, 6)?;
        refuse_if((0..2).any(|at| r[COUNTS[at]] > room(m, s, at)), 6)?;
        let width = m.map.q + 1;
        for (k, row) in s.stack.chunks(width + 1).take(r[HEIGHT] as usize).enumerate() {
            refuse_if(row[0] > 1 || row[..width].iter().any(|&x| x > 1_000_000), 6)?;
            refuse_if(u64::from(row[width]) >> width != 0 || row[width].count_ones() as usize != k, 6)?;
        }
        Ok(())
    }

    fn row_at(width: usize, s: &Lent, k: usize) -> (Vec<u32>, u32) {
        let row = &s.stack[k * (width + 1)..(k + 1) * (width + 1)];
        (row[..width].to_vec(), row[width])
    }

    fn write_row(width: usize, s: &mut Lent, k: usize, tuple: &[u32], marks: u32) {
        s.stack[k * (width + 1)..][..width].copy_from_slice(tuple);
        s.stack[k * (width + 1) + width] = marks;
    }

    fn try_start(m: &Sided, s: &mut Lent) -> Check {
        check_shape(m, s)?;
        check_record(s)?;
        check_ranges(m)?;
        let width = m.map.q + 1;
        for k in 0..width {
            let unit: Vec<u32> = (0..width).map(|j| u32::from(j == k)).collect();
            write_row(width, s, k, &unit, (1 << k) - 1);
        }
        s.record = vec![width as u64, 0, 0, CAPPED, 0, 0, 0];
        Ok(())
    }

    pub fn start(m: &Sided, s: &mut Lent) -> Answer {
        try_start(m, s).err().unwrap_or(Answer::Started)
    }

    /// "an extra unknown, placed first with the negated right sides as its column"
    fn column(m: &Sided, j: usize) -> Vec<i64> {
        (0..m.map.p).map(|i| if j == 0 { -i64::from(m.rights[i]) } else { i64::from(m.map.coefs[i * m.map.q + j - 1]) }).collect()
    }

    fn image(m: &Sided, tuple: &[u32]) -> Vec<i64> {
        (0..m.map.p).map(|i| tuple.iter().enumerate().map(|(j, &x)| column(m, j)[i] * i64::from(x)).sum()).collect()
    }

    /// "rows without the extra unknown (a comparison puts it back)"
    fn stopped(m: &Sided, s: &Lent, tuple: &[u32]) -> bool {
        (0..2).any(|at| s.rows(m.map.q, at).iter().any(|row| at as u32 <= tuple[0] && row.iter().zip(&tuple[1..]).all(|(x, y)| x <= y)))
    }

    fn step(m: &Sided, s: &mut Lent) -> Check {
        refuse_if(s.record[STEPS] == 1_000_000_000_000, 14)?;
        let (q, width, level) = (m.map.q, m.map.q + 1, s.record[HEIGHT] as usize - 1);
        let (top, marks) = row_at(width, s, level);
        let image = image(m, &top);
        let mut made = Vec::new();
        if image.iter().all(|&y| y == 0) {
            let at = top[0] as usize;
            let count = s.record[COUNTS[at]];
            refuse_if(count == room(m, s, at), 11)?;
            s.lists[at][count as usize * q..][..q].copy_from_slice(&top[1..]);
            s.record[COUNTS[at]] += 1;
        } else {
            let mut frozen = marks;
            for j in 0..width {
                let mut raised = top.clone();
                raised[j] += 1;
                let falls = image.iter().zip(column(m, j)).map(|(y, c)| y * c).sum::<i64>() < 0;
                if marks >> j & 1 == 0 && falls && raised[0] <= 1 && !stopped(m, s, &raised) {
                    made.push((raised, frozen));
                    frozen |= 1 << j;
                }
            }
            refuse_if(made.iter().any(|(raised, _)| raised.iter().any(|&x| x > 1_000_000)), 12)?;
        }
        for (n, (raised, frozen)) in made.iter().enumerate() {
            write_row(width, s, level + n, raised, *frozen);
        }
        s.record[HEIGHT] = (level + made.len()) as u64;
        s.record[STEPS] += 1;
        s.record[DEEPEST] = s.record[DEEPEST].max(top.iter().map(|&x| u64::from(x)).sum());
        Ok(())
    }

    fn try_resume(m: &Sided, s: &mut Lent, budget: u64) -> Result<Answer, Answer> {
        check_shape(m, s)?;
        check_order(m, s)?;
        check_ranges(m)?;
        for _ in 0..budget {
            if s.record[HEIGHT] == 0 {
                break;
            }
            step(m, s)?;
        }
        Ok(if s.record[HEIGHT] == 0 { Answer::Complete } else { Answer::Paused })
    }

    pub fn resume(m: &Sided, s: &mut Lent, budget: u64) -> Answer {
        try_resume(m, s, budget).unwrap_or_else(|refusal| refusal)
    }

    pub fn row(lists: &[Vec<u32>; 2], at: usize, q: usize, found: usize, n: usize, out: &mut [u32]) -> Shown {
        if !(1..=15).contains(&q) {
            return Shown::Refused(2);
        }
        if at > 1 || n == 0 || n > found {
            return Shown::None;
        }
        let Some(row) = lists[at].chunks_exact(q).nth(n - 1) else {
            return Shown::None;
        };
        if out.len() < q {
            return Shown::Refused(29);
        }
        out[..q].copy_from_slice(row);
        Shown::Row
    }
}

// ---- drawn ones

fn rights_for(d: &mut Draw, m: &System) -> Vec<i32> {
    match d.between(0, 4) {
        0 => vec![0; m.p],
        1 => (0..m.p).map(|_| d.of(&[-10_000, 10_000, 0, 1, -1])).collect(),
        2 => {
            // the image of a small tuple, where that is in range
            let tuple: Vec<i32> = (0..m.q).map(|_| d.between(0, 3) as i32).collect();
            let sums = m.coefs.chunks(m.q).map(|row| row.iter().zip(&tuple).map(|(c, x)| c * x).sum::<i32>());
            sums.map(|b| b.clamp(-10_000, 10_000)).collect()
        }
        _ => (0..m.p).map(|_| d.between(0, 20) as i32 - 10).collect(),
    }
}

/// A map with right sides, in order, of any size.
pub fn any_sided(d: &mut Draw) -> Sided {
    let mut map = draw::any_system(d);
    if map.q == 16 {
        map = draw::system(d, map.p, 15);
    }
    let rights = rights_for(d, &map);
    Sided { map, rights }
}

/// Spoils a map with right sides in one way.
pub fn damage_sided(d: &mut Draw, m: &mut Sided) {
    match d.between(0, 6) {
        0 => m.rights.truncate(d.between(0, m.rights.len())),
        1 => m.rights.push(1),
        2 => m.map.q = 16,
        3 => {
            let place = d.between(0, m.rights.len());
            let wrong = d.of(&[10_001, -10_001, i32::MAX, i32::MIN]);
            if let Some(b) = m.rights.get_mut(place) {
                *b = wrong;
            }
        }
        _ => draw::damage_system(d, &mut m.map),
    }
}

/// Tables and a record that are in order for q unknowns: any run could have left them, or none.
pub fn state(d: &mut Draw, q: usize) -> Lent {
    let width = q + 1;
    let plain = draw::state(d, width);
    let mut stack = plain.stack;
    for row in stack.chunks_mut(width + 1).take(width) {
        row[0] = d.between(0, 1) as u32;
    }
    let lists = [draw::state(d, q).list, draw::state(d, q).list];
    let mut record = plain.record;
    record[KIND] = CAPPED;
    for at in 0..2 {
        record[COUNTS[at]] = d.between(0, lists[at].len() / q) as u64;
    }
    Lent { stack, lists, record }
}

/// Spoils a state in one way.
pub fn damage_state(d: &mut Draw, q: usize, s: &mut Lent) {
    let rooms = [0, 1].map(|at| (s.lists[at].len() / q) as u64);
    let at = d.between(0, 1);
    let (place, word) = match d.between(0, 8) {
        0 => (HEIGHT, d.of(&[q as u64 + 2, q as u64 + 3, u64::MAX])),
        1 => (COUNTS[at], d.of(&[rooms[at] + 1, rooms[at] + 2, u64::MAX])),
        2 => (STEPS, d.of(&[1_000_000_000_001, u64::MAX])),
        3 => (KIND, d.of(&[0, 2, 3, 4, 5, 257, 1 << 32, u64::MAX])),
        4 => (DEEPEST, d.of(&[16_000_001, 1 << 32, u64::MAX])),
        5 => return s.stack.truncate(d.between(0, (q + 1) * (q + 2))),
        6 => return s.lists[at].truncate(d.between(0, s.lists[at].len())),
        7 => return s.record.resize(d.of(&[0, 1, 6, 8, 42]), 0),
        _ => {
            let (k, j) = (d.between(0, q), d.between(0, q + 1));
            let wrong = d.of(&[2, 3, 1_000_001, 1 << 16, 1 << 31, u32::MAX]);
            if let Some(x) = s.stack.get_mut(k * (q + 2) + if d.one_in(3) { 0 } else { j }) {
                *x = wrong;
            }
            return;
        }
    };
    if s.record.len() > place {
        s.record[place] = word;
    }
}
