//! Drawn numbers, maps and states: the same for the same seed.

use crate::{State, System, DEEPEST, FOUND, HEIGHT, KIND, STEPS};

/// SplitMix64.
pub struct Draw(u64);

impl Draw {
    pub fn new(seed: u64) -> Draw {
        Draw(seed)
    }

    pub fn word(&mut self) -> u64 {
        self.0 = self.0.wrapping_add(0x9e37_79b9_7f4a_7c15);
        let x = (self.0 ^ (self.0 >> 30)).wrapping_mul(0xbf58_476d_1ce4_e5b9);
        let x = (x ^ (x >> 27)).wrapping_mul(0x94d0_49bb_1331_11eb);
        x ^ (x >> 31)
    }

    /// From `from` to `to`, both included.
    pub fn between(&mut self, from: usize, to: usize) -> usize {
        from + (self.word() % (to - from + 1) as u64) as usize
    }

    pub fn one_in(&mut self, n: usize) -> bool {
        self.between(1, n) == 1
    }

    pub fn of<T: Copy>(&mut self, choices: &[T]) -> T {
        choices[self.between(0, choices.len() - 1)]
    }

    fn signed(&mut self, size: i32) -> i32 {
        self.between(0, 2 * size as usize) as i32 - size
    }
}

// ---- maps

/// A map in order: coefficients small, sparse, of every size, or at the ends of the range.
pub fn system(d: &mut Draw, p: usize, q: usize) -> System {
    let kind = d.between(0, 4);
    let coefficient = |d: &mut Draw| match kind {
        0 => d.signed(2),
        1 => d.signed(9),
        2 => d.of(&[0, 0, 0, -1, 1, -2, 2]),
        3 => d.signed(10_000),
        _ => d.of(&[-10_000, 10_000, 0, 1, -1]),
    };
    let coefs = (0..p * q).map(|_| coefficient(d)).collect();
    System { p, q, coefs }
}

/// A map of any size, mostly a small one.
pub fn any_system(d: &mut Draw) -> System {
    let p = if d.one_in(3) { d.between(1, 8) } else { d.between(1, 3) };
    let q = if d.one_in(3) { d.between(1, 16) } else { d.between(1, 6) };
    system(d, p, q)
}

/// Spoils a map in one way.
pub fn damage_system(d: &mut Draw, m: &mut System) {
    match d.between(0, 4) {
        0 => m.p = d.of(&[0, 9, 8, usize::MAX]),
        1 => m.q = d.of(&[0, 17, 16, usize::MAX]),
        2 => m.coefs.truncate(d.between(0, m.coefs.len())),
        3 => m.coefs.push(1),
        _ => {
            for _ in 0..d.between(1, 3) {
                let place = d.between(0, m.coefs.len());
                let wrong = d.of(&[10_001, -10_001, i32::MAX, i32::MIN]);
                if let Some(c) = m.coefs.get_mut(place) {
                    *c = wrong;
                }
            }
        }
    }
}

// ---- states

/// n marks among the first q unknowns.
fn marks(d: &mut Draw, q: usize, n: usize) -> u32 {
    let mut marks = 0u32;
    while (marks.count_ones() as usize) < n {
        marks |= 1 << d.between(0, q - 1);
    }
    marks
}

fn component(d: &mut Draw, kind: usize) -> u32 {
    match kind {
        0 => d.between(0, 3) as u32,
        1 => d.between(0, 40) as u32,
        2 => d.between(0, 1_000_000) as u32,
        _ => d.of(&[1_000_000, 999_999, 999_998, 0, 1]),
    }
}

/// A row of the list: near the rows of the stack, or anything.
fn list_entry(d: &mut Draw, kind: usize) -> u32 {
    match kind {
        0 => d.between(0, 3) as u32,
        1 => d.between(0, 60) as u32,
        2 => d.of(&[0, 0, 1_000_000, 1_000_001, u32::MAX]),
        _ => d.word() as u32,
    }
}

/// Tables and a record that are in order for q unknowns: any run could have left them, or none.
pub fn state(d: &mut Draw, q: usize) -> State {
    let extra = if d.one_in(2) { 0 } else { d.between(0, 20) };
    let mut stack: Vec<u32> = (0..q * (q + 1) + extra).map(|_| d.word() as u32).collect();
    let kind = d.between(0, 3);
    for (k, row) in stack.chunks_mut(q + 1).take(q).enumerate() {
        row[..q].fill_with(|| component(d, kind));
        row[q] = marks(d, q, k);
    }
    let list_kind = d.between(0, 3);
    let length = d.between(0, 12 * q);
    let list: Vec<u32> = (0..length).map(|_| list_entry(d, list_kind)).collect();
    let steps = match d.between(0, 3) {
        0 => 0,
        1 => d.word() % 1_000_000_000_001,
        _ => d.of(&[1_000_000_000_000, 999_999_999_999, 999_999_999_990, 1]),
    };
    let deepest = match d.between(0, 2) {
        0 => 0,
        1 => d.word() % 16_000_001,
        _ => d.of(&[16_000_000, 15_999_999, 1, 2, 3]),
    };
    let (second, before) = (d.of(&[0, 1, 1 << 32, u64::MAX]), d.of(&[0, 1, 1_000_000_000_001, u64::MAX]));
    let record = vec![d.between(0, q) as u64, d.between(0, length / q) as u64, steps, 0, second, before, deepest];
    State { stack, list, record }
}

/// Sets a word of the record, where it has that word.
fn set(s: &mut State, place: usize, word: u64) {
    if let Some(x) = s.record.get_mut(place) {
        *x = word;
    }
}

/// Spoils a state in one way.
pub fn damage_state(d: &mut Draw, q: usize, s: &mut State) {
    let room = (s.list.len() / q) as u64;
    match d.between(0, 10) {
        0 => set(s, HEIGHT, d.of(&[q as u64 + 1, q as u64 + 2, u64::MAX])),
        1 => set(s, FOUND, d.of(&[room + 1, room + 2, u64::MAX])),
        2 => set(s, STEPS, d.of(&[1_000_000_000_001, u64::MAX])),
        8 => set(s, KIND, d.of(&[1, 2, 3, 4, 5, 6, 256, 1 << 32, u64::MAX])),
        9 => set(s, DEEPEST, d.of(&[16_000_001, 1 << 32, u64::MAX])),
        10 => s.record.resize(d.of(&[0, 1, 3, 6, 8, 42]), 0),
        3 => s.stack.truncate(d.between(0, q * (q + 1))),
        4 => s.list.truncate(d.between(0, s.list.len())),
        kind => {
            let place = d.between(0, q * (q + 1));
            let wrong = match kind {
                5 => d.of(&[1_000_001, u32::MAX, 1 << 31, 1 << 20]),
                6 => 1 << d.between(0, 31),
                _ => d.word() as u32,
            };
            if let Some(x) = s.stack.get_mut(place) {
                *x = wrong;
            }
        }
    }
}
