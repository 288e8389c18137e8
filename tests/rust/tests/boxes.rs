//! Lists against every tuple of a small box, by code that does not walk.

use dezgula_tests::{boxes, draw, draw::Draw, library, Answer, State, System};

const BUDGET: u64 = 20_000;
const ROOM: usize = 3_000;

/// A box of at most some 20,000 tuples.
fn side(q: usize) -> u32 {
    [200, 200, 140, 26, 11, 6, 4][q]
}

/// What is listed in the box is minimal there, and once finished it is all that is; no row lies at or below another.
fn compare(m: &System, s: &State, answer: Answer) {
    let (rows, zero) = (s.rows(m.q), vec![0; m.q]);
    let listed = boxes::within(&rows, &zero, side(m.q));
    let minimal = boxes::minimal(m, &zero, side(m.q), false);
    if answer == Answer::Complete {
        assert_eq!(listed, minimal, "{m:?}");
    } else {
        assert!(listed.iter().all(|row| minimal.contains(row)), "{m:?}");
    }
    assert!(boxes::apart(&rows), "{m:?}");
}

fn small_system(d: &mut Draw) -> System {
    let (p, q) = (d.between(1, 3), d.between(1, 6));
    let size = d.of(&[1, 2, 3, 5, 9]);
    let coefs = (0..p * q).map(|_| d.between(0, 2 * size) as i32 - size as i32).collect();
    System { p, q, coefs }
}

#[test]
fn plain_runs() {
    let mut d = Draw::new(11);
    let mut complete = 0;
    for _ in 0..3_000 {
        let m = small_system(&mut d);
        let mut s = State::blank(m.q, ROOM);
        assert_eq!(library::start(&m, &mut s), Answer::Started);
        let answer = library::resume(&m, &mut s, BUDGET);
        compare(&m, &s, answer);
        complete += usize::from(answer == Answer::Complete);
    }
    println!("{complete} complete");
    assert!(complete > 2_000);
}

/// A run cut short lists only what the whole run lists, in the same order.
#[test]
fn cut_short() {
    let mut d = Draw::new(13);
    for _ in 0..500 {
        let m = draw::any_system(&mut d);
        let mut long = State::blank(m.q, ROOM);
        library::start(&m, &mut long);
        library::resume(&m, &mut long, BUDGET);
        let mut short = State::blank(m.q, ROOM);
        library::start(&m, &mut short);
        library::resume(&m, &mut short, d.word() % (long.steps() + 1));
        assert_eq!(short.rows(m.q), long.rows(m.q)[..short.found()]);
    }
}
