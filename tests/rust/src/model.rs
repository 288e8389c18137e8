//! Document 01 in plain Rust, in its own order. Images are computed anew for each row, and nothing is shared with the library.

use crate::{Answer, Listed, Located, Shown, State, System, DEEPEST, FOUND, HEIGHT, KIND, STEPS, WORDS};

const COMPONENT_LIMIT: u32 = 1_000_000;
const STEP_LIMIT: u64 = 1_000_000_000_000;
const SUM_LIMIT: u64 = 16_000_000;
const PLAIN: u64 = 0;

type Check = Result<(), Answer>;

fn refuse_if(condition: bool, number: u8) -> Check {
    if condition {
        Err(Answer::refused(number))
    } else {
        Ok(())
    }
}

// ---- refusals before the walk

fn check_shape(m: &System, s: &State) -> Check {
    refuse_if(!(1..=8).contains(&m.p), 1)?;
    refuse_if(!(1..=16).contains(&m.q), 2)?;
    refuse_if(m.coefs.len() != m.p * m.q, 3)?;
    refuse_if(s.stack.len() < m.q * (m.q + 1), 4)
}

/// A record of another length than its seven words is out of order, for a start too.
fn check_record(s: &State) -> Check {
    refuse_if(s.record.len() != WORDS, 6)
}

fn check_order(m: &System, s: &State) -> Check {
    check_record(s)?;
    refuse_if(s.record[KIND] != PLAIN, 6)?;
    refuse_if(s.height() > m.q || s.found() > room(m, s) || s.steps() > STEP_LIMIT || s.deepest() > SUM_LIMIT, 6)?;
    for (k, row) in s.stack.chunks(m.q + 1).take(s.height()).enumerate() {
        let (tuple, marks) = row.split_at(m.q);
        refuse_if(tuple.iter().any(|&x| x > COMPONENT_LIMIT), 6)?;
        refuse_if((m.q..32).any(|j| marked(marks[0], j)), 6)?;
        refuse_if((0..m.q).filter(|&j| marked(marks[0], j)).count() != k, 6)?;
    }
    Ok(())
}

fn check_coefficients(m: &System) -> Check {
    match m.coefs.iter().position(|c| !(-10_000..=10_000).contains(c)) {
        Some(place) => Err(Answer::Refused { number: 7, value: place + 1 }),
        None => Ok(()),
    }
}

// ---- the start

/// The record of a plain run that has taken no step.
fn begun(height: usize) -> Vec<u64> {
    vec![height as u64, 0, 0, PLAIN, 0, 0, 0]
}

fn write_row(q: usize, stack: &mut [u32], k: usize, tuple: &[u32], marks: u32) {
    let row = &mut stack[k * (q + 1)..(k + 1) * (q + 1)];
    row[..q].copy_from_slice(tuple);
    row[q] = marks;
}

fn try_start(m: &System, s: &mut State) -> Check {
    check_shape(m, s)?;
    check_record(s)?;
    check_coefficients(m)?;
    for k in 0..m.q {
        let unit: Vec<u32> = (0..m.q).map(|j| u32::from(j == k)).collect();
        write_row(m.q, &mut s.stack, k, &unit, (0..k).map(|j| 1 << j).sum());
    }
    s.record = begun(m.q);
    Ok(())
}

pub fn start(m: &System, s: &mut State) -> Answer {
    try_start(m, s).err().unwrap_or(Answer::Started)
}

// ---- one step

fn room(m: &System, s: &State) -> usize {
    s.list.len() / m.q
}

fn marked(marks: u32, j: usize) -> bool {
    marks >> j & 1 == 1
}

fn image(m: &System, tuple: &[u32]) -> Vec<i64> {
    m.coefs.chunks(m.q).map(|row| row.iter().zip(tuple).map(|(&c, &x)| i64::from(c) * i64::from(x)).sum()).collect()
}

fn inner_product(m: &System, image: &[i64], j: usize) -> i64 {
    image.iter().enumerate().map(|(i, &y)| y * i64::from(m.coefs[i * m.q + j])).sum()
}

fn at_or_below(a: &[u32], b: &[u32]) -> bool {
    a.iter().zip(b).all(|(x, y)| x <= y)
}

fn raise(tuple: &[u32], j: usize) -> Vec<u32> {
    let mut raised = tuple.to_vec();
    raised[j] += 1;
    raised
}

fn step(m: &System, s: &mut State) -> Check {
    refuse_if(s.steps() == STEP_LIMIT, 14)?;
    let level = s.height() - 1;
    let top = s.stack[level * (m.q + 1)..][..m.q].to_vec();
    let marks = s.stack[level * (m.q + 1) + m.q];
    let image = image(m, &top);
    if image.iter().all(|&y| y == 0) {
        refuse_if(s.found() == room(m, s), 11)?;
        let place = s.found() * m.q;
        s.list[place..][..m.q].copy_from_slice(&top);
        s.record[FOUND] += 1;
        s.record[HEIGHT] -= 1;
    } else {
        let makes_child = |j: usize| {
            let raised = raise(&top, j);
            !marked(marks, j) && inner_product(m, &image, j) < 0 && !s.list.chunks(m.q).take(s.found()).any(|row| at_or_below(row, &raised))
        };
        let made: Vec<usize> = (0..m.q).filter(|&j| makes_child(j)).collect();
        refuse_if(made.iter().any(|&j| top[j] == COMPONENT_LIMIT), 12)?;
        let mut frozen = marks;
        for (n, &j) in made.iter().enumerate() {
            write_row(m.q, &mut s.stack, level + n, &raise(&top, j), frozen);
            frozen |= 1 << j;
        }
        s.record[HEIGHT] = (level + made.len()) as u64;
    }
    s.record[STEPS] += 1;
    s.record[DEEPEST] = s.deepest().max(top.iter().map(|&x| u64::from(x)).sum());
    Ok(())
}

// ---- the continuing call

fn try_resume(m: &System, s: &mut State, budget: u64) -> Result<Answer, Answer> {
    check_shape(m, s)?;
    check_order(m, s)?;
    check_coefficients(m)?;
    let mut left = budget;
    loop {
        if s.height() == 0 {
            return Ok(Answer::Complete);
        }
        if left == 0 {
            return Ok(Answer::Paused);
        }
        step(m, s)?;
        left -= 1;
    }
}

pub fn resume(m: &System, s: &mut State, budget: u64) -> Answer {
    try_resume(m, s, budget).unwrap_or_else(|refusal| refusal)
}

// ---- the reader

pub fn row(list: &[u32], q: usize, found: usize, n: usize, out: &mut [u32]) -> Shown {
    if !(1..=16).contains(&q) {
        return Shown::Refused(2);
    }
    if n == 0 || n > found {
        return Shown::None;
    }
    let Some(row) = list.chunks_exact(q).nth(n - 1) else {
        return Shown::None;
    };
    if out.len() < q {
        return Shown::Refused(29);
    }
    out[..q].copy_from_slice(row);
    Shown::Row
}

// ---- single-file maps: document 02, job 12

fn column(m: &System, j: usize) -> Vec<i32> {
    m.coefs.chunks(m.q).map(|row| row[j]).collect()
}

fn check_profile(m: &System) -> Check {
    let fits = |j: usize| {
        let mut others: Vec<i32> = column(m, j).into_iter().filter(|&c| c != 0).collect();
        others.sort_unstable();
        others.is_empty() || others == [-1, 1]
    };
    match (0..m.q).find(|&j| !fits(j)) {
        Some(j) => Err(Answer::Refused { number: 26, value: j + 1 }),
        None => Ok(()),
    }
}

pub fn start_single_file(m: &System, s: &mut State) -> Answer {
    let checks = || check_shape(m, s).and_then(|()| check_record(s)).and_then(|()| check_coefficients(m)).and_then(|()| check_profile(m));
    match checks() {
        Err(refusal) => refusal,
        Ok(()) => start(m, s),
    }
}

pub fn resume_single_file(m: &System, s: &mut State, budget: u64) -> Answer {
    let checks = || check_shape(m, s).and_then(|()| check_order(m, s)).and_then(|()| check_coefficients(m)).and_then(|()| check_profile(m));
    match checks() {
        Err(refusal) => refusal,
        Ok(()) => resume(m, s, budget),
    }
}

/// Whether a row is a minimal solution, by trying every row of 0 and 1 at or below it: one that has a larger component has such a row below it.
fn is_minimal(m: &System, row: &[u32]) -> bool {
    let solves = |x: &[u32]| image(m, x).iter().all(|&y| y == 0);
    if row.iter().all(|&x| x == 0) || !solves(row) {
        return false;
    }
    let named: Vec<usize> = (0..m.q).filter(|&j| row[j] > 0).collect();
    (1..1_u32 << named.len()).all(|parts| {
        let part: Vec<u32> = (0..m.q).map(|j| u32::from(named.iter().position(|&k| k == j).is_some_and(|n| parts >> n & 1 == 1))).collect();
        part == row || !solves(&part)
    })
}

/// The order that begins with the lowest: from each unknown on to the one that has its -1 where this one has its 1.
fn order(m: &System, row: &[u32]) -> Vec<usize> {
    let named: Vec<usize> = (0..m.q).filter(|&j| row[j] > 0).collect();
    let mut order = vec![named[0]];
    while order.len() < named.len() {
        let here = column(m, order[order.len() - 1]);
        order.push(*named.iter().find(|&&k| here.iter().zip(column(m, k)).any(|(&c, other)| c == 1 && other == -1)).expect("a next one"));
    }
    order
}

fn line(m: &System, row: &[u32]) -> String {
    let names = |unknowns: Vec<usize>| unknowns.iter().map(|j| (j + 1).to_string()).collect::<Vec<_>>().join(" ");
    format!("{} order {}\n", names((0..m.q).filter(|&j| row[j] > 0).collect()), names(order(m, row)))
}

fn try_listing(m: &System, list: &[u32], found: usize, out: &mut [u8]) -> Result<usize, Answer> {
    refuse_if(!(1..=8).contains(&m.p), 1)?;
    refuse_if(!(1..=16).contains(&m.q), 2)?;
    refuse_if(m.coefs.len() != m.p * m.q, 3)?;
    refuse_if(found > list.len() / m.q, 6)?;
    check_coefficients(m)?;
    check_profile(m)?;
    let rows = || list.chunks(m.q).take(found);
    if let Some(n) = rows().position(|row| !is_minimal(m, row)) {
        return Err(Answer::Refused { number: 30, value: n + 1 });
    }
    let text: String = rows().map(|row| line(m, row)).collect();
    refuse_if(text.len() > out.len(), 29)?;
    out[..text.len()].copy_from_slice(text.as_bytes());
    Ok(text.len())
}

pub fn listing(m: &System, list: &[u32], found: usize, out: &mut [u8]) -> Listed {
    match try_listing(m, list, found, out) {
        Ok(bytes) => Listed::Written(bytes),
        Err(Answer::Refused { number, value }) => Listed::Refused { number, value },
        Err(other) => panic!("no refusal: {other:?}"),
    }
}

// ---- document 02, Job 7: "The check says which row"

/// The highest place, from 1, of a listed row that is at or below the tuple in every component.
pub fn locate(most: usize, list: &[u32], q: usize, found: usize, tuple: &[u32]) -> Located {
    if !(1..=most).contains(&q) {
        return Located::Refused(2);
    }
    if tuple.len() != q {
        return Located::Refused(5);
    }
    if found > list.len() / q {
        return Located::Refused(6);
    }
    let places: Vec<usize> = (1..=found).filter(|n| list[(n - 1) * q..n * q].iter().zip(tuple).all(|(a, b)| a <= b)).collect();
    places.last().map_or(Located::Nowhere, |&n| Located::At(n))
}
