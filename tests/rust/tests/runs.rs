//! The document's "Runs to compare".

use dezgula_tests::lower::{self, Bounded, LIST};
use dezgula_tests::{library, Answer, State, System, DEEPEST, HEIGHT, STEPS};

const ROOM: usize = 100;

struct Run {
    answer: Answer,
    steps: u64,
    height: usize,
    deepest: u64,
    rows: Vec<Vec<u32>>,
}

fn run(rows: &[&[i32]], room: usize, budget: u64) -> Run {
    let m = System::of(rows);
    let mut s = State::blank(m.q, room);
    assert_eq!(library::start(&m, &mut s), Answer::Started);
    let answer = library::resume(&m, &mut s, budget);
    Run { answer, steps: s.steps(), height: s.height(), deepest: s.deepest(), rows: s.rows(m.q) }
}

/// The walk above a lower bound, after the plain walk.
fn run_from(rows: &[&[i32]], lower: &[u32]) -> Run {
    let m = Bounded { map: System::of(rows), lower: lower.to_vec() };
    let mut s = lower::blank(m.map.q, [ROOM, ROOM]);
    assert_eq!(lower::start(&m, &mut s), Answer::Started);
    let answer = lower::resume(&m, &mut s, u64::MAX);
    Run { answer, steps: s.record[STEPS], height: s.record[HEIGHT] as usize, deepest: s.record[DEEPEST], rows: s.rows(m.map.q, LIST) }
}

fn expect(r: Run, answer: Answer, steps: u64, rows: &[&[u32]]) {
    assert_eq!((r.answer, r.steps, r.rows), (answer, steps, rows.iter().map(|row| row.to_vec()).collect()));
}

fn complete(r: Run, steps: u64, rows: &[&[u32]]) {
    assert_eq!(r.height, 0);
    expect(r, Answer::Complete, steps, rows);
}

const EXAMPLE: &[&[i32]] = &[&[-1, 1, 2, -3], &[-1, 3, -2, -1]];

#[test]
fn plain_runs() {
    let whole = |rows: &[&[i32]]| run(rows, ROOM, u64::MAX);
    complete(whole(&[&[0]]), 1, &[&[1]]);
    complete(whole(&[&[5]]), 1, &[]);
    complete(whole(&[&[2, -3]]), 6, &[&[3, 2]]);
    complete(whole(&[&[1, 1, -1]]), 5, &[&[0, 1, 1], &[1, 0, 1]]);
    complete(whole(&[&[0, 0, 0]]), 3, &[&[0, 0, 1], &[0, 1, 0], &[1, 0, 0]]);
    complete(whole(&[&[1, -1], &[1, 1]]), 2, &[]);
    complete(whole(EXAMPLE), 16, &[&[0, 1, 1, 1], &[4, 2, 1, 0]]);
    complete(whole(&[&[10_000, -10_000]]), 3, &[&[1, 1]]);
}

#[test]
fn cut_short() {
    let seven = run(EXAMPLE, ROOM, 7);
    assert_eq!(seven.height, 1);
    expect(seven, Answer::Paused, 7, &[&[0, 1, 1, 1]]);
    let room_for_one = run(EXAMPLE, 1, u64::MAX);
    assert_eq!(room_for_one.height, 1);
    expect(room_for_one, Answer::refused(11), 15, &[&[0, 1, 1, 1]]);
}

#[test]
fn from_a_lower_bound() {
    complete(run_from(&[&[2, -3]], &[0, 0]), 1, &[&[0, 0]]);
    complete(run_from(&[&[1, -1]], &[0, 2]), 3, &[&[2, 2]]);
    complete(run_from(&[&[1, -1]], &[3, 3]), 1, &[&[3, 3]]);
    expect(run_from(&[&[2, -1]], &[1_000_000, 999_999]), Answer::refused(12), 1, &[]);
    complete(run_from(&[&[1, -1]], &[1_000_000, 0]), 1_000_001, &[&[1_000_000, 1_000_000]]);
    complete(run_from(&[&[2, -2, 1], &[0, 0, 1]], &[0, 0, 1]), 2, &[]);
}

#[test]
fn out_of_range() {
    let m = System::of(&[&[10_001, -10_000]]);
    assert_eq!(library::start(&m, &mut State::blank(2, ROOM)), Answer::Refused { number: 7, value: 1 });
}

#[test]
fn example_4_of_the_paper() {
    let mut r = run(&[&[-1, 1, 2, -3]], ROOM, u64::MAX);
    r.rows.sort();
    complete(r, 17, &[&[0, 0, 3, 2], &[0, 1, 1, 1], &[0, 3, 0, 1], &[1, 0, 2, 1], &[1, 1, 0, 0], &[2, 0, 1, 0]]);
}

/// Document 02, Job 6: "the greatest sum of components among the tuples taken off so far, 0 at the start".
#[test]
fn the_greatest_sum() {
    let whole = |rows: &[&[i32]]| run(rows, ROOM, u64::MAX).deepest;
    assert_eq!(whole(&[&[0]]), 1);
    assert_eq!(whole(&[&[2, -3]]), 5);
    assert_eq!(whole(&[&[1, 1, -1]]), 2);
    assert_eq!(whole(&[&[1, -1], &[1, 1]]), 1);
    assert_eq!(whole(EXAMPLE), 7);
    assert_eq!(whole(&[&[-1, 1, 2, -3]]), 5);
    assert_eq!(run(EXAMPLE, ROOM, 0).deepest, 0);
    assert_eq!(run(EXAMPLE, ROOM, 7).deepest, 3);
    assert_eq!(run(EXAMPLE, 1, u64::MAX).deepest, 6, "the step that is refused takes nothing off");
    assert_eq!(run_from(&[&[2, -3]], &[0, 0]).deepest, 0);
    assert_eq!(run_from(&[&[1, -1]], &[0, 2]).deepest, 4, "the lower bound's own components count");
    assert_eq!(run_from(&[&[2, -1]], &[1_000_000, 999_999]).deepest, 1_999_999);
    assert_eq!(run_from(&[&[0; 16]], &[1_000_000; 16]).deepest, 16_000_000);
}

/// The numbers of solutions in the tables of the paper's section 11.4.
#[test]
fn systems_of_the_paper() {
    let solutions = |rows: &[&[i32]]| {
        let r = run(rows, 12_000, 3_000_000);
        assert_eq!(r.answer, Answer::Complete);
        r.rows.len()
    };
    assert_eq!(solutions(&[&[-4, 1, 1, 1, 1], &[1, -4, 1, 1, 1], &[1, 1, -4, 1, 1], &[1, 1, 1, -4, 1]]), 1);
    assert_eq!(solutions(&[&[0, 0, 0, 0, -2, 1, 1], &[0, 0, -4, 1, 1, 1, 1], &[-6, 1, 1, 1, 1, 1, 1]]), 95);
    assert_eq!(solutions(&[&[1, 2, -3, -2, -4], &[2, -1, -3, 2, 5]]), 10);
    assert_eq!(solutions(&[&[10, -7, -8, 3, -11], &[12, -9, -7, 3, 13]]), 240);
    assert_eq!(solutions(&[&[-12, 2, 2, 2, 0, 3, 3], &[6, -1, -5, 0, 0, 0, 0], &[-6, 1, 1, 1, 1, 1, 1]]), 95);
    assert_eq!(solutions(&[&[-10, 0, 20, -1, -21], &[9, 1, -17, 2, 19]]), 0);
    assert_eq!(solutions(&[&[2, -3, -5, -1, -2, 4], &[-5, 10, -3, -7, 2, 1], &[3, 0, 4, -2, -3, -1]]), 47);
    assert_eq!(solutions(&[&[1, -3, 9, -1, 81], &[-9, 27, 81, -9, 1], &[1, -3, 9, 1, -81]]), 2);
}
