//! The library and the model on drawn maps and states, good ones and damaged ones: the same answer, and the same in every place of tables and record.

use dezgula_tests::{draw, draw::Draw, library, model, tally::Tally, Answer, Shown, State, System};
use std::collections::BTreeMap;

/// One call on both sides.
fn both(tally: &mut Tally, m: &System, s: &mut State, call: &str, ours: impl Fn(&mut State) -> Answer, theirs: impl Fn(&mut State) -> Answer) -> Answer {
    let before = s.clone();
    let mut expected = s.clone();
    let wanted = theirs(&mut expected);
    let answer = ours(s);
    assert_eq!(answer, wanted, "{call} on {m:?} and {before:?}");
    assert_eq!(*s, expected, "{call} on {m:?} and {before:?}");
    tally.count(answer);
    answer
}

fn resume(tally: &mut Tally, m: &System, s: &mut State, budget: u64) -> Answer {
    both(tally, m, s, "resume", |s| library::resume(m, s, budget), |s| model::resume(m, s, budget))
}

fn start(tally: &mut Tally, m: &System, s: &mut State) -> Answer {
    both(tally, m, s, "start", |s| library::start(m, s), |s| model::start(m, s))
}

/// A few continuing calls with budgets of their own.
fn go_on(d: &mut Draw, tally: &mut Tally, m: &System, s: &mut State, calls: usize) {
    for _ in 0..d.between(1, calls) {
        let budget = d.of(&[0, 1, 2, 3, 10, 100, 300]);
        if resume(tally, m, s, budget) == Answer::Complete && d.one_in(2) {
            break;
        }
    }
}

#[test]
fn plain_runs() {
    let (mut d, mut tally) = (Draw::new(1), Tally::default());
    for _ in 0..20_000 {
        let m = draw::any_system(&mut d);
        let mut s = State::blank(m.q, d.of(&[0, 1, 2, 5, 50, 400]));
        start(&mut tally, &m, &mut s);
        go_on(&mut d, &mut tally, &m, &mut s, 12);
    }
    tally.has_met(&[Answer::Started, Answer::Complete, Answer::Paused], &[11]);
}

#[test]
fn states_in_order() {
    let (mut d, mut tally) = (Draw::new(3), Tally::default());
    for _ in 0..60_000 {
        let m = draw::any_system(&mut d);
        let mut s = draw::state(&mut d, m.q);
        go_on(&mut d, &mut tally, &m, &mut s, 4);
    }
    tally.has_met(&[Answer::Complete, Answer::Paused], &[11, 12, 14]);
}

#[test]
fn damaged_states_and_maps() {
    let (mut d, mut tally) = (Draw::new(4), Tally::default());
    for _ in 0..60_000 {
        let mut m = draw::any_system(&mut d);
        let mut s = draw::state(&mut d, m.q);
        for _ in 0..d.between(0, 2) {
            draw::damage_state(&mut d, m.q, &mut s);
        }
        for _ in 0..d.of(&[0, 0, 1, 2]) {
            draw::damage_system(&mut d, &mut m);
        }
        let budget = d.of(&[0, 1, 3, 50]);
        resume(&mut tally, &m, &mut s, budget);
    }
    tally.has_met(&[Answer::Complete, Answer::Paused], &[1, 2, 3, 4, 6, 7, 11, 12, 14]);
}

#[test]
fn damaged_starts() {
    let (mut d, mut tally) = (Draw::new(5), Tally::default());
    for _ in 0..60_000 {
        let mut m = draw::any_system(&mut d);
        let mut s = draw::state(&mut d, m.q);
        for _ in 0..d.between(0, 2) {
            draw::damage_state(&mut d, m.q, &mut s);
        }
        for _ in 0..d.of(&[0, 0, 1, 2]) {
            draw::damage_system(&mut d, &mut m);
        }
        start(&mut tally, &m, &mut s);
    }
    tally.has_met(&[Answer::Started], &[1, 2, 3, 4, 7]);
}

#[test]
fn rows_shown() {
    let mut d = Draw::new(6);
    let mut seen = BTreeMap::<Shown, usize>::new();
    for _ in 0..60_000 {
        let q = if d.one_in(8) { d.of(&[0, 17, usize::MAX]) } else { d.between(1, 16) };
        let list: Vec<u32> = (0..d.between(0, 60)).map(|_| d.word() as u32).collect();
        let found = if d.one_in(8) { usize::MAX } else { d.between(0, 12) };
        let n = if d.one_in(16) { usize::MAX } else { d.between(0, 12) };
        let mut out: Vec<u32> = (0..d.between(0, 20)).map(|_| d.word() as u32).collect();
        let mut expected = out.clone();
        let wanted = model::row(&list, q, found, n, &mut expected);
        let shown = library::row(&list, q, found, n, &mut out);
        assert_eq!((shown, &out), (wanted, &expected), "row {n} of {list:?}, q {q}, found {found}");
        *seen.entry(shown).or_default() += 1;
    }
    println!("{seen:?}");
    assert!(seen.len() == 4 && seen.values().all(|&n| n >= 20), "{seen:?}");
}
