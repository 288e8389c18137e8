//! The training seat (document 02, Job 9): its calls against the office's, step by step, on drawn maps, bounds and states and at its edges.

use dezgula_tests::lower::{self, Bounded, WALK_ABOVE};
use dezgula_tests::sides::Lent;
use dezgula_tests::training::{self, SEAT_LIMIT};
use dezgula_tests::{draw, draw::Draw, tally::Tally, Answer, State, System, KIND};

/// One call on both sides.
fn both<S: Clone + std::fmt::Debug + PartialEq>(tally: &mut Tally, s: &mut S, seat: impl Fn(&mut S) -> Answer, expected: impl Fn(&mut S) -> Answer) -> Answer {
    let (before, mut wanted) = (s.clone(), s.clone());
    let answer = expected(&mut wanted);
    assert_eq!((seat(s), &*s), (answer, &wanted), "{before:?}");
    tally.count(answer);
    answer
}

fn start(tally: &mut Tally, m: &System, s: &mut State) -> Answer {
    both(tally, s, |s| training::start(m, s), |s| training::expected_start(m, s))
}

fn resume(tally: &mut Tally, m: &System, s: &mut State, budget: u64) -> Answer {
    both(tally, s, |s| training::resume(m, s, budget), |s| training::expected_resume(m, s, budget))
}

fn start_from(tally: &mut Tally, m: &Bounded, s: &mut Lent) -> Answer {
    both(tally, s, |s| training::start_from(m, s), |s| training::expected_start_from(m, s))
}

fn resume_from(tally: &mut Tally, m: &Bounded, s: &mut Lent, budget: u64) -> Answer {
    both(tally, s, |s| training::resume_from(m, s, budget), |s| training::expected_resume_from(m, s, budget))
}

#[test]
fn by_hand() {
    let mut tally = Tally::default();
    // 20 -19 has 19 20; 21 -20 would need a component of 21
    for (row, answer, rows) in [([20, -19], Answer::Complete, vec![vec![19, 20]]), ([21, -20], Answer::refused(24), vec![])] {
        let m = System::of(&[&row]);
        let mut s = State::blank(2, 4);
        assert_eq!(start(&mut tally, &m, &mut s), Answer::Started);
        assert_eq!((resume(&mut tally, &m, &mut s, 1_000), s.steps(), s.rows(2)), (answer, 40, rows));
    }
    for (q, answer) in [(6, Answer::Started), (7, Answer::refused(23)), (16, Answer::refused(23)), (17, Answer::refused(2))] {
        let m = Bounded { map: System { p: 1, q, coefs: vec![1; q] }, lower: vec![0; q] };
        assert_eq!(start(&mut tally, &m.map, &mut State::blank(q, 1)), answer);
        assert_eq!(start_from(&mut tally, &m, &mut lower::blank(q, [1, 1])), answer);
    }
    for (bound, answer) in [(20, Answer::Started), (21, Answer::refused(8)), (1_000_000, Answer::refused(8))] {
        let m = Bounded { map: System::of(&[&[1, -1]]), lower: vec![0, bound] };
        assert_eq!(start_from(&mut tally, &m, &mut lower::blank(2, [1, 1])), answer);
    }
}

#[test]
fn drawn_runs() {
    let (mut d, mut tally) = (Draw::new(901), Tally::default());
    for _ in 0..6_000 {
        let m = draw::any_system(&mut d);
        let mut s = State::blank(m.q, d.of(&[0, 1, 2, 5, 400]));
        if start(&mut tally, &m, &mut s) == Answer::Started {
            for _ in 0..d.between(1, 6) {
                let budget = d.of(&[0, 1, 2, 3, 10, 100, 300]);
                resume(&mut tally, &m, &mut s, budget);
            }
        }
    }
    tally.has_met(&[Answer::Started, Answer::Complete, Answer::Paused], &[11, 23, 24]);
}

#[test]
fn drawn_runs_from_a_lower_bound() {
    let (mut d, mut tally) = (Draw::new(902), Tally::default());
    for _ in 0..6_000 {
        let mut m = lower::any_bounded(&mut d);
        m.lower.iter_mut().for_each(|x| *x %= SEAT_LIMIT + 1);
        if d.one_in(20) {
            let place = d.between(0, m.map.q - 1);
            m.lower[place] = SEAT_LIMIT + 1;
        }
        let mut s = lower::blank(m.map.q, [d.of(&[0, 1, 5, 400]), d.of(&[1, 5, 400])]);
        if start_from(&mut tally, &m, &mut s) == Answer::Started {
            for _ in 0..d.between(1, 6) {
                let budget = d.of(&[0, 1, 2, 3, 10, 100, 300]);
                resume_from(&mut tally, &m, &mut s, budget);
            }
        }
    }
    tally.has_met(&[Answer::Started, Answer::Complete, Answer::Paused], &[8, 11, 23, 24]);
}

/// Rows of the stack brought down to what the seat takes, but now and then one past it.
fn lowered(d: &mut Draw, q: usize, stack: &mut [u32], least: &[u32]) {
    for row in stack.chunks_mut(q + 1).take(q) {
        for (x, &l) in row.iter_mut().zip(least) {
            *x = if d.one_in(200) { SEAT_LIMIT + 1 } else { (*x % (SEAT_LIMIT + 1)).max(l) };
        }
    }
}

#[test]
fn drawn_states() {
    let (mut d, mut tally) = (Draw::new(903), Tally::default());
    for _ in 0..40_000 {
        let mut m = draw::any_system(&mut d);
        let mut s = draw::state(&mut d, m.q);
        lowered(&mut d, m.q, &mut s.stack, &vec![0; m.q]);
        if d.one_in(4) {
            draw::damage_system(&mut d, &mut m);
        }
        if d.one_in(4) && (1..=16).contains(&m.q) {
            draw::damage_state(&mut d, m.q, &mut s);
        }
        if d.one_in(5) {
            start(&mut tally, &m, &mut s);
        }
        resume(&mut tally, &m, &mut s, d.of(&[0, 1, 2, 9]));
    }
    tally.has_met(&[Answer::Started, Answer::Complete, Answer::Paused], &[1, 2, 3, 4, 6, 7, 11, 14, 23, 24]);
}

#[test]
fn drawn_states_from_a_lower_bound() {
    let (mut d, mut tally) = (Draw::new(904), Tally::default());
    for _ in 0..40_000 {
        let mut m = lower::any_bounded(&mut d);
        m.lower.iter_mut().for_each(|x| *x %= SEAT_LIMIT + 1);
        let mut s = lower::state(&mut d, &m);
        let least = if s.record[KIND] == WALK_ABOVE { m.lower.clone() } else { vec![0; m.map.q] };
        lowered(&mut d, m.map.q, &mut s.stack, &least);
        if d.one_in(6) {
            let place = d.between(0, m.map.q - 1);
            m.lower[place] = SEAT_LIMIT + 1;
        }
        if d.one_in(4) {
            lower::damage_bounded(&mut d, &mut m);
        }
        if d.one_in(4) && (1..=16).contains(&m.map.q) {
            lower::damage_state(&mut d, m.map.q, &mut s);
        }
        if d.one_in(5) {
            start_from(&mut tally, &m, &mut s);
        }
        resume_from(&mut tally, &m, &mut s, d.of(&[0, 1, 2, 9]));
    }
    tally.has_met(&[Answer::Started, Answer::Complete, Answer::Paused], &[1, 2, 3, 4, 5, 6, 7, 8, 11, 14, 23, 24]);
}
