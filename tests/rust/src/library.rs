//! The calls of the crate `dezgula` on the states of the tests: the words of a record go in and come out, and an answer that the call cannot give is none. A
//! record of another length, which the crate cannot hand over, goes to the proved function under the call.

use crate::words::{self, Words};
use crate::{Answer, Listed, Located, Shown, State, System, WORDS};
use dezgula::calls::{self, Found, Lent, Map, Part, Record, Round, Share, Turn};

impl System {
    pub fn map(&self) -> Map<'_> {
        Map { p: self.p, q: self.q, coefs: &self.coefs }
    }
}

/// Rows of q numbers, all of a table that there are.
pub fn whole(rows: &[u32], q: usize) -> Found<'_> {
    Found { rows, found: rows.len().checked_div(q).unwrap_or(0) }
}

pub fn record(words: &[u64]) -> Record {
    let &[height, found, steps, kind, second, before, deepest] = words else { panic!("a record has {WORDS} words") };
    Record { height, found, steps, kind, second, before, deepest }
}

fn words_of(r: &Record) -> [u64; WORDS] {
    [r.height, r.found, r.steps, r.kind, r.second, r.before, r.deepest]
}

/// A call on tables and on a record as words: that of the crate, or where the record is not as long as its own, the proved function.
pub fn on(mut w: Words, call: impl FnOnce(&mut Lent) -> dezgula::Answer, raw: impl FnOnce(&mut Words) -> dezgula::Answer) -> dezgula::Answer {
    if w.record.len() != WORDS {
        return raw(&mut w);
    }
    let (mut record, [list, second]) = (record(w.record), w.lists);
    let answer = call(&mut Lent { stack: w.stack, list, second, record: &mut record });
    w.record.copy_from_slice(&words_of(&record));
    answer
}

impl State {
    pub fn on(&mut self, call: impl FnOnce(&mut Lent) -> dezgula::Answer, raw: impl FnOnce(&mut Words) -> dezgula::Answer) -> dezgula::Answer {
        on(Words { stack: &mut self.stack, lists: [&mut self.list, &mut []], record: &mut self.record }, call, raw)
    }
}

/// What a run's call answers; of the refusals only these.
pub fn told(answer: dezgula::Answer, refusals: &[u8]) -> Answer {
    match (answer.number(), answer.place() as usize) {
        (0, 0) => Answer::Complete,
        (100, 0) => Answer::Started,
        (101, 0) => Answer::Paused,
        (number, value) if refusals.contains(&number) => Answer::Refused { number, value },
        _ => panic!("no such answer: {answer:?}"),
    }
}

pub fn shown(answer: dezgula::Answer) -> Shown {
    match answer.number() {
        102 => Shown::Row,
        103 => Shown::None,
        number => Shown::Refused(number),
    }
}

const REFUSALS: [u8; 10] = [1, 2, 3, 4, 6, 7, 11, 12, 14, 26];

pub fn start(m: &System, s: &mut State) -> Answer {
    told(s.on(|lent| calls::start(m.map(), lent), |w| words::start(m.map(), w)), &REFUSALS)
}

pub fn resume(m: &System, s: &mut State, budget: u64) -> Answer {
    told(s.on(|lent| calls::resume(m.map(), lent, budget), |w| words::resume(m.map(), w, budget)), &REFUSALS)
}

pub fn start_single_file(m: &System, s: &mut State) -> Answer {
    told(s.on(|lent| calls::start_single_file(m.map(), lent), |w| words::start_single_file(m.map(), w)), &REFUSALS)
}

pub fn resume_single_file(m: &System, s: &mut State, budget: u64) -> Answer {
    told(s.on(|lent| calls::resume_single_file(m.map(), lent, budget), |w| words::resume_single_file(m.map(), w, budget)), &REFUSALS)
}

pub fn listing(m: &System, list: &[u32], found: usize, out: &mut [u8]) -> Listed {
    let answer = calls::listing(m.map(), Found { rows: list, found }, out);
    match answer.number() {
        104 => Listed::Written(answer.place() as usize),
        number => Listed::Refused { number, value: answer.place() as usize },
    }
}

/// Reads q, the list, its count and the kind only.
pub fn row(list: &[u32], q: usize, found: usize, n: usize, out: &mut [u32]) -> Shown {
    let mut record = Record { found: found as u64, ..Record::default() };
    let mut lent = Lent { stack: &mut [], list: &mut list.to_vec(), second: &mut [], record: &mut record };
    shown(calls::row(Map { p: 0, q, coefs: &[] }, &mut lent, n, out))
}

/// Of the system it reads q only. The call for at most 16 unknowns, or that of the engine for at most 32.
pub fn locate(list: &[u32], q: usize, found: usize, tuple: &[u32]) -> Located {
    located(calls::locate(Map { p: 0, q, coefs: &[] }, Found { rows: list, found }, tuple))
}

pub fn engine_locate(list: &[u32], q: usize, found: usize, tuple: &[u32]) -> Located {
    located(calls::engine_locate(Map { p: 0, q, coefs: &[] }, Found { rows: list, found }, tuple))
}

fn located(answer: dezgula::Answer) -> Located {
    match answer.number() {
        127 => Located::Nowhere,
        126 => Located::At(answer.place() as usize),
        number => Located::Refused(number),
    }
}

/// The words of a run's turn: those of its record, the number of its answer and its place.
pub const TURN: usize = WORDS + 2;
pub const ROUND: usize = 2 + 8 * TURN;

fn round(own: &[u64]) -> Round {
    let turn = |t: &[u64]| Turn { record: record(&t[..WORDS]), answer: t[WORDS] + 256 * t[WORDS + 1] };
    let mut runs = [Turn::default(); 8];
    runs.iter_mut().zip(own[2..].chunks(TURN)).for_each(|(run, t)| *run = turn(t));
    Round { last: own[0], steps: own[1], runs }
}

fn round_words(r: &Round) -> Vec<u64> {
    let turn = |t: &Turn| [&words_of(&t.record)[..], &[t.answer & 0xff, t.answer >> 8]].concat();
    [r.last, r.steps].into_iter().chain(r.runs.iter().flat_map(turn)).collect()
}

/// Turns of `quantum` steps. A share is p, q and where its coefficients, stack and list begin and how long each is. The number of the call.
pub fn dispatch(quantum: u64, turns: u64, shares: &[[usize; 8]], coefs: &[i32], s: &mut State) -> u8 {
    let part = |start, size| Part { start, size };
    let share = |w: &[usize; 8]| Share { p: w[0], q: w[1], coefs: part(w[2], w[3]), stack: part(w[4], w[5]), list: part(w[6], w[7]) };
    if s.record.len() != ROUND {
        let own: Vec<u64> = shares.iter().flatten().map(|&word| word as u64).collect();
        let mut w = Words { stack: &mut s.stack, lists: [&mut s.list, &mut []], record: &mut s.record };
        return words::dispatch(shares.len(), quantum, turns, &own, coefs, &mut w).number();
    }
    let shares: Vec<Share> = shares.iter().map(share).collect();
    let mut own = round(&s.record);
    let answer = calls::dispatch(&shares, coefs, &mut s.stack, &mut s.list, &mut own, quantum, turns);
    s.record = round_words(&own);
    answer.number()
}
