//! Lists as files (document 02, Job 5): the calls, and the same in plain Rust straight from the document.

use dezgula::calls::{self, FileHead, Found, Map};

/// What is sent. Nothing here says that it is in order.
#[derive(Clone, Debug, PartialEq, Eq)]
pub struct List {
    pub p: usize,
    pub q: usize,
    pub coefs: Vec<i32>,
    pub rows: Vec<u32>,
    pub ending: u32,
}

/// A refusal: the document's number, and the place that 7 comes with.
pub type Refused = (u8, usize);

pub fn write(l: &List, out: &mut [u8]) -> Result<(), Refused> {
    // where the last row is not whole, there are more rows than the table has
    let found = if l.q == 0 { 0 } else { l.rows.len().div_ceil(l.q) };
    let answer = calls::write_list(Map { p: l.p, q: l.q, coefs: &l.coefs }, Found { rows: &l.rows, found }, l.ending, out);
    match answer.number() {
        106 => Ok(()),
        number => Err((number, answer.place() as usize)),
    }
}

/// p, q, the row count and the ending.
pub fn read(file: &[u8], coefs: &mut [i32], list: &mut [u32]) -> Result<(usize, usize, usize, u32), Refused> {
    let mut head = FileHead::default();
    let answer = calls::read_list(file, coefs, list, &mut head);
    match answer.number() {
        107 => Ok((head.p, head.q, head.found, head.ending)),
        number => Err((number, answer.place() as usize)),
    }
}

// ---- from the document

pub fn length(l: &List) -> usize {
    512 * ((l.coefs.len() + l.rows.len()).div_ceil(126) + 1)
}

fn sealed(number: usize, content: &[u32]) -> Vec<u8> {
    let mut words = vec![number as u32];
    words.extend(content);
    words.resize(127, 0);
    words.push(words.iter().fold(0u32, |sum, w| sum.wrapping_add(*w)).wrapping_neg());
    words.iter().flat_map(|w| w.to_le_bytes()).collect()
}

/// The file, or why there is none.
pub fn written(l: &List, room: usize) -> Result<Vec<u8>, Refused> {
    let refuse = |number| Err((number, 0));
    if !(1..=8).contains(&l.p) {
        return refuse(1);
    }
    if !(1..=16).contains(&l.q) {
        return refuse(2);
    }
    if l.coefs.len() != l.p * l.q {
        return refuse(3);
    }
    if let Some(i) = l.coefs.iter().position(|c| c.abs() > 10000) {
        return Err((7, i + 1));
    }
    let count = l.rows.len() / l.q;
    if count * l.q != l.rows.len() || count > 4096 || l.ending > 1 || l.rows.iter().any(|x| *x > 1_000_000) {
        return refuse(22);
    }
    if room != length(l) {
        return refuse(19);
    }
    let stream: Vec<u32> = l.coefs.iter().map(|c| *c as u32).chain(l.rows.iter().copied()).collect();
    let mut file = sealed(0, &[l.p as u32, l.q as u32, count as u32, l.ending]);
    for (k, part) in stream.chunks(126).enumerate() {
        file.extend(sealed(k + 1, part));
    }
    Ok(file)
}
