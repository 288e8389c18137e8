//! Runs from a lower bound (document 02, Job 4): the library and the model on drawn maps, bounds and states, and lists against every tuple of a small box.

use dezgula_tests::lower::{self, model, Bounded, LIST, PLAIN_WALK, SECOND_LIST, WALK_ABOVE};
use dezgula_tests::sides::{self, Lent, Sided, COUNTS};
use dezgula_tests::{boxes, draw::Draw, library, tally::Tally, Answer, State, System, BEFORE, DEEPEST, FOUND, HEIGHT, KIND, SECOND, STEPS};

fn bounded(rows: &[&[i32]], lower: &[u32]) -> Bounded {
    Bounded { map: System::of(rows), lower: lower.to_vec() }
}

/// One call on both sides.
fn both(tally: &mut Tally, m: &Bounded, s: &mut Lent, ours: impl Fn(&mut Lent) -> Answer, theirs: impl Fn(&mut Lent) -> Answer) -> Answer {
    let before = s.clone();
    let mut expected = s.clone();
    let wanted = theirs(&mut expected);
    let answer = ours(s);
    assert_eq!((answer, &*s), (wanted, &expected), "{m:?} and {before:?}");
    tally.count(answer);
    answer
}

fn start(tally: &mut Tally, m: &Bounded, s: &mut Lent) -> Answer {
    both(tally, m, s, |s| lower::start(m, s), |s| model::start(m, s))
}

fn resume(tally: &mut Tally, m: &Bounded, s: &mut Lent, budget: u64) -> Answer {
    both(tally, m, s, |s| lower::resume(m, s, budget), |s| model::resume(m, s, budget))
}

fn started(m: &Bounded, rooms: [usize; 2]) -> Lent {
    let mut s = lower::blank(m.map.q, rooms);
    assert_eq!(lower::start(m, &mut s), Answer::Started);
    s
}

// ---- by hand

type Listed = Vec<Vec<u32>>;

/// The answer, both lists, and the steps above the bound, the plain steps and the greatest sum.
fn whole(rows: &[&[i32]], bound: &[u32]) -> (Answer, Listed, Listed, [u64; 3]) {
    let m = bounded(rows, bound);
    let mut s = started(&m, [50, 50]);
    let answer = lower::resume(&m, &mut s, u64::MAX);
    (answer, s.rows(m.map.q, LIST), s.rows(m.map.q, SECOND_LIST), [s.record[STEPS], s.record[BEFORE], s.record[DEEPEST]])
}

#[test]
fn by_hand() {
    // "The example ends with an empty list after 2 floor steps."
    assert_eq!(whole(&[&[2, -2, 1], &[0, 0, 1]], &[0, 0, 1]), (Answer::Complete, vec![], vec![vec![1, 1, 0]], [2, 5, 2]));
    assert_eq!(whole(&[&[1, -1]], &[0, 2]), (Answer::Complete, vec![vec![2, 2]], vec![vec![1, 1]], [3, 3, 4]));
    // a lower bound that is itself a solution, after the plain run
    assert_eq!(whole(&[&[2, -3]], &[0, 0]), (Answer::Complete, vec![vec![0, 0]], vec![vec![3, 2]], [1, 6, 0]));
    assert_eq!(whole(&[&[2, -1]], &[1_000_000, 999_999]), (Answer::refused(12), vec![], vec![vec![1, 2]], [1, 4, 1_999_999]));
}

/// The start writes as a plain one, and a call with a budget of 0 may change the walk.
#[test]
fn the_change_of_walk() {
    let m = bounded(&[&[1, -1]], &[0, 2]);
    let mut s = started(&m, [4, 4]);
    assert_eq!((&s.stack[..6], &s.record[..]), (&[1, 0, 0, 0, 1, 1][..], &[2, 0, 0, PLAIN_WALK, 0, 0, 0][..]));
    assert_eq!(lower::resume(&m, &mut s, 2), Answer::Paused);
    assert_eq!(s.record, [1, 0, 0, PLAIN_WALK, 0, 2, 0]);
    assert_eq!(lower::resume(&m, &mut s, 1), Answer::Paused);
    assert_eq!(s.record, [1, 0, 0, WALK_ABOVE, 1, 3, 0]);
    assert_eq!(s.stack[..3], [0, 2, 0]);
    // a plain walk that another call left at height 0
    s.record = vec![0, 0, 0, PLAIN_WALK, 1, 3, 0];
    s.stack[..3].fill(9);
    assert_eq!(lower::resume(&m, &mut s, 0), Answer::Paused);
    assert_eq!((&s.stack[..3], &s.record[..]), (&[0, 2, 0][..], &[1, 0, 0, WALK_ABOVE, 1, 3, 0][..]));
    assert_eq!(lower::resume(&m, &mut s, 3), Answer::Complete);
    assert_eq!(s.record, [0, 1, 3, WALK_ABOVE, 1, 3, 4]);
}

// ---- the model

#[test]
fn drawn_runs() {
    let (mut d, mut tally) = (Draw::new(121), Tally::default());
    for _ in 0..20_000 {
        let m = lower::any_bounded(&mut d);
        let mut s = lower::blank(m.map.q, [d.of(&[0, 1, 2, 5, 400]), d.of(&[0, 1, 5, 50, 400])]);
        assert_eq!(start(&mut tally, &m, &mut s), Answer::Started);
        for _ in 0..d.between(1, 12) {
            let budget = d.of(&[0, 1, 2, 3, 10, 100, 300]);
            if resume(&mut tally, &m, &mut s, budget) == Answer::Complete && d.one_in(2) {
                break;
            }
        }
    }
    tally.has_met(&[Answer::Started, Answer::Complete, Answer::Paused], &[11, 12]);
}

/// A pause after every step, and one call; in between a call with a budget of 0, which changes nothing.
#[test]
fn pauses_at_every_step() {
    let (mut d, mut tally) = (Draw::new(122), Tally::default());
    let mut under_way = [0, 0];
    for _ in 0..1_500 {
        let m = lower::any_bounded(&mut d);
        let mut s = started(&m, [60, 60]);
        let mut at_once = s.clone();
        let mut answer = Answer::Paused;
        for _ in 0..200 {
            answer = resume(&mut tally, &m, &mut s, 1);
            under_way[usize::from(s.record[KIND] == WALK_ABOVE)] += 1;
            let before = s.clone();
            lower::resume(&m, &mut s, 0);
            assert_eq!(s, before);
        }
        assert_eq!(lower::resume(&m, &mut at_once, 200), answer);
        assert_eq!(at_once, s, "{m:?}");
    }
    tally.has_met(&[Answer::Complete, Answer::Paused], &[]);
    println!("{under_way:?}");
    assert!(under_way.iter().all(|&n| n > 10_000), "{under_way:?}");
}

#[test]
fn states_in_order() {
    let (mut d, mut tally) = (Draw::new(123), Tally::default());
    for _ in 0..60_000 {
        let m = lower::any_bounded(&mut d);
        let mut s = lower::state(&mut d, &m);
        for _ in 0..d.between(1, 3) {
            let budget = d.of(&[0, 1, 2, 10, 50]);
            resume(&mut tally, &m, &mut s, budget);
        }
    }
    tally.has_met(&[Answer::Complete, Answer::Paused], &[11, 12, 14]);
}

#[test]
fn damaged_states_maps_and_bounds() {
    let (mut d, mut tally) = (Draw::new(124), Tally::default());
    for _ in 0..80_000 {
        let mut m = lower::any_bounded(&mut d);
        let mut s = lower::state(&mut d, &m);
        for _ in 0..d.between(0, 2) {
            lower::damage_state(&mut d, m.map.q, &mut s);
        }
        for _ in 0..d.of(&[0, 0, 1, 2]) {
            lower::damage_bounded(&mut d, &mut m);
        }
        start(&mut tally, &m, &mut s.clone());
        let budget = d.of(&[0, 1, 3, 20]);
        resume(&mut tally, &m, &mut s, budget);
    }
    tally.has_met(&[Answer::Started, Answer::Complete, Answer::Paused], &[1, 2, 3, 4, 5, 6, 7, 8, 11, 12, 14]);
}

// ---- refusals

/// 11 is about the list of the walk under way: with room for one row more there the run goes on, with none in the other.
#[test]
fn either_list_full() {
    let mut d = Draw::new(125);
    let mut met = [0, 0];
    for _ in 0..2_000 {
        let m = lower::any_bounded(&mut d);
        let q = m.map.q;
        let mut s = Lent { lists: [Vec::new(), Vec::new()], ..started(&m, [0, 0]) };
        for _ in 0..30 {
            if lower::resume(&m, &mut s, 2_000) != Answer::refused(11) {
                break;
            }
            assert_eq!(lower::resume(&m, &mut s, 2_000), Answer::refused(11), "the same call again refuses again");
            let at = if s.record[KIND] == PLAIN_WALK { SECOND_LIST } else { LIST };
            let found = s.record[COUNTS[at]];
            assert_eq!(s.lists[at].len(), found as usize * q);
            s.lists[at].extend(vec![7; q]);
            assert_ne!(lower::resume(&m, &mut s, 1), Answer::refused(11));
            assert_eq!(s.record[COUNTS[at]], found + 1);
            met[at] += 1;
        }
    }
    println!("{met:?}");
    assert!(met.iter().all(|&n| n > 100), "{met:?}");
}

/// 14 is about the walk under way, and so is the count that the other has come to.
#[test]
fn steps_of_either_walk_at_the_limit() {
    const MOST: u64 = 1_000_000_000_000;
    let m = bounded(&[&[1, -1]], &[0, 2]);
    let mut s = started(&m, [4, 4]);
    s.record[STEPS] = MOST;
    assert_eq!(lower::resume(&m, &mut s, 3), Answer::Paused);
    assert_eq!((s.record[KIND], s.record[STEPS], s.record[BEFORE]), (WALK_ABOVE, MOST, 3));
    assert_eq!(lower::resume(&m, &mut s, 1), Answer::refused(14));
    (s.record[STEPS], s.record[BEFORE]) = (0, MOST);
    assert_eq!(lower::resume(&m, &mut s, 100), Answer::Complete);
    let mut s = started(&m, [4, 4]);
    s.record[BEFORE] = MOST - 1;
    assert_eq!(lower::resume(&m, &mut s, 100), Answer::refused(14));
    assert_eq!((s.record[KIND], s.record[BEFORE]), (PLAIN_WALK, MOST));
}

/// "A record of one kind of run .. given to a continuing call of another kind is 6.", and so is one of a run from a higher bound.
#[test]
fn records_of_another_kind() {
    let m = bounded(&[&[1, -1]], &[0, 2]);
    for steps in [0, 1, 3, 4, 6] {
        let mut s = started(&m, [5, 5]);
        lower::resume(&m, &mut s, steps);
        let mut plain = State { stack: s.stack.clone(), list: s.lists[LIST].clone(), record: s.record.clone() };
        assert_eq!(library::resume(&m.map, &mut plain, 10), Answer::refused(6));
        assert_eq!(library::start(&m.map, &mut plain), Answer::Started);
        let mut other = Lent { record: plain.record, ..s.clone() };
        assert_eq!(lower::resume(&m, &mut other, 10), Answer::refused(6));
        let sided = Sided { map: m.map.clone(), rights: vec![1] };
        let mut other = Lent { stack: vec![0; 12], ..s.clone() };
        assert_eq!(sides::resume(&sided, &mut other, 10), Answer::refused(6));
        assert_eq!(sides::start(&sided, &mut other), Answer::Started);
        assert_eq!(lower::resume(&m, &mut other, 10), Answer::refused(6));
        let higher = bounded(&[&[1, -1]], &[3, 2]);
        let wanted = if s.record[HEIGHT] > 0 && s.record[KIND] == WALK_ABOVE { Answer::refused(6) } else { lower::resume(&m, &mut s.clone(), 0) };
        assert_eq!(lower::resume(&higher, &mut s, 0), wanted, "{steps}");
    }
}

// ---- what is listed

fn small_bounded(d: &mut Draw) -> Bounded {
    let (p, q) = (d.between(1, 3), d.between(1, 6));
    let size = d.of(&[1, 2, 3, 5, 9]);
    let coefs = (0..p * q).map(|_| d.between(0, 2 * size) as i32 - size as i32).collect();
    Bounded { map: System { p, q, coefs }, lower: (0..q).map(|_| d.of(&[0, 0, 1, 2, 3, 5])).collect() }
}

/// What is listed in a box is minimal there, and once finished it is all that is; no row lies at or below another.
#[test]
fn boxes_from_a_lower_bound() {
    let mut d = Draw::new(126);
    let mut complete = 0;
    for _ in 0..3_000 {
        let m = small_bounded(&mut d);
        let q = m.map.q;
        let mut s = started(&m, [3_000, 3_000]);
        let answer = lower::resume(&m, &mut s, 20_000);
        let side = [200, 200, 140, 26, 11, 6, 4][q];
        let (rows, plain) = (s.rows(q, LIST), s.rows(q, SECOND_LIST));
        let (listed, minimal) = (boxes::within(&rows, &m.lower, side), boxes::minimal(&m.map, &m.lower, side, true));
        assert!(listed.iter().all(|row| minimal.contains(row)), "{m:?}");
        assert!(answer != Answer::Complete || listed == minimal, "{m:?}");
        assert!(boxes::apart(&rows), "{m:?}");
        let zero = vec![0; q];
        let (listed, minimal) = (boxes::within(&plain, &zero, side), boxes::minimal(&m.map, &zero, side, false));
        assert!(listed.iter().all(|row| minimal.contains(row)), "{m:?}");
        assert!(s.record[KIND] == PLAIN_WALK || listed == minimal, "{m:?}");
        assert_eq!((rows.len() as u64, plain.len() as u64), (s.record[FOUND], s.record[SECOND]));
        complete += usize::from(answer == Answer::Complete);
    }
    println!("{complete} complete");
    assert!(complete > 2_000);
}

/// Beside a walk above the bound that has no second list: the same list in the same order, and never more steps.
#[test]
fn the_second_list_saves_steps() {
    let mut d = Draw::new(127);
    let (mut ended, mut fewer) = (0, 0);
    for _ in 0..3_000 {
        let m = small_bounded(&mut d);
        let q = m.map.q;
        let mut s = started(&m, [3_000, 3_000]);
        if lower::resume(&m, &mut s, 20_000) != Answer::Complete {
            continue;
        }
        let mut alone = lower::blank(q, [3_000, 0]);
        alone.stack[..q].copy_from_slice(&m.lower);
        alone.stack[q] = 0;
        alone.record = vec![1, 0, 0, WALK_ABOVE, 0, 0, 0];
        let answer = lower::resume(&m, &mut alone, 20_000);
        assert!(s.record[STEPS] <= alone.record[STEPS], "{m:?}");
        if answer == Answer::Complete {
            assert_eq!(s.rows(q, LIST), alone.rows(q, LIST), "{m:?}");
            ended += 1;
        }
        fewer += usize::from(s.record[STEPS] < alone.record[STEPS]);
    }
    println!("{ended} ended without a second list, {fewer} took fewer steps with it");
    assert!(ended > 1_500 && fewer > 100);
}

/// The plain walk of a run is the plain run: the same rows, steps and stack.
#[test]
fn the_plain_walk_is_the_plain_run() {
    let mut d = Draw::new(128);
    for _ in 0..1_000 {
        let m = lower::any_bounded(&mut d);
        let q = m.map.q;
        let room = d.of(&[0, 1, 5, 60]);
        let mut s = started(&m, [5, room]);
        let mut plain = State::blank(q, room);
        assert_eq!(library::start(&m.map, &mut plain), Answer::Started);
        for _ in 0..40 {
            let budget = d.of(&[0, 1, 2, 5, 30]);
            let (answer, wanted) = (lower::resume(&m, &mut s, budget), library::resume(&m.map, &mut plain, budget));
            if s.record[KIND] == WALK_ABOVE {
                assert_eq!(wanted, Answer::Complete);
                break;
            }
            assert_eq!((answer, &s.stack, s.record[HEIGHT]), (wanted, &plain.stack, plain.record[HEIGHT]), "{m:?}");
        }
        assert_eq!((s.record[SECOND], s.record[BEFORE], s.rows(q, SECOND_LIST)), (plain.record[FOUND], plain.record[STEPS], plain.rows(q)), "{m:?}");
    }
}
