//! The minimal solutions in a box of tuples, by trying every tuple of it.

use crate::System;

fn meets(m: &System, rights: &[i32], tuple: &[u32]) -> bool {
    (0..m.p).all(|i| (0..m.q).map(|j| i64::from(m.coefs[i * m.q + j]) * i64::from(tuple[j])).sum::<i64>() == i64::from(rights[i]))
}

/// The next tuple of the box, the last component running fastest; none after the last.
fn advance(tuple: &mut [u32], lower: &[u32], side: u32) -> bool {
    for j in (0..tuple.len()).rev() {
        if tuple[j] < lower[j] + side {
            tuple[j] += 1;
            return true;
        }
        tuple[j] = lower[j];
    }
    false
}

/// Those solutions in the box from `lower` to `lower` + side, zero left out unless `zero`, that have no other of them below. In rising order.
pub fn minimal(m: &System, lower: &[u32], side: u32, zero: bool) -> Vec<Vec<u32>> {
    minimal_meeting(m, &vec![0; m.p], lower, side, zero)
}

/// The same of the tuples that meet right sides.
pub fn minimal_meeting(m: &System, rights: &[i32], lower: &[u32], side: u32, zero: bool) -> Vec<Vec<u32>> {
    let mut solutions: Vec<Vec<u32>> = Vec::new();
    let mut tuple = lower.to_vec();
    loop {
        if meets(m, rights, &tuple) && (zero || tuple.iter().any(|&x| x != 0)) {
            solutions.push(tuple.clone());
        }
        if !advance(&mut tuple, lower, side) {
            break;
        }
    }
    let below = |s: &Vec<u32>, t: &Vec<u32>| s != t && s.iter().zip(t).all(|(x, y)| x <= y);
    solutions.iter().filter(|t| !solutions.iter().any(|s| below(s, t))).cloned().collect()
}

/// Those of the rows that lie in the box, in rising order.
pub fn within(rows: &[Vec<u32>], lower: &[u32], side: u32) -> Vec<Vec<u32>> {
    let inside = |row: &&Vec<u32>| row.iter().zip(lower).all(|(&x, &l)| (l..=l + side).contains(&x));
    let mut rows: Vec<Vec<u32>> = rows.iter().filter(inside).cloned().collect();
    rows.sort();
    rows
}

/// Whether no row is at or below another.
pub fn apart(rows: &[Vec<u32>]) -> bool {
    let covers = |i: usize, k: usize| i != k && rows[i].iter().zip(&rows[k]).all(|(x, y)| x <= y);
    !(0..rows.len()).any(|i| (0..rows.len()).any(|k| covers(i, k)))
}
