//! One desk after the other: lists as sets against the plain walk, split into two, three and as many desks as equations; pauses after every step; lists
//! that fill at every row; and records that are not of these runs.

use dezgula_tests::desks::{blank, built, group, plain, resume, start, DESKS};
use dezgula_tests::draw::Draw;
use dezgula_tests::{library, Answer, State, System, FOUND, HEIGHT, KIND, STEPS};

fn small(d: &mut Draw) -> System {
    let (p, q) = (d.between(2, 4), d.between(1, 4));
    let size = d.of(&[1, 1, 2]);
    let coefs = (0..p * q).map(|_| d.between(0, 2 * size) as i32 - size as i32).collect();
    System { p, q, coefs }
}

fn sorted(rows: &[u32], q: usize) -> Vec<&[u32]> {
    let mut rows: Vec<&[u32]> = rows.chunks(q).collect();
    rows.sort_unstable();
    rows
}

#[test]
fn the_same_rows_as_the_whole_map() {
    let (mut d, mut wide) = (Draw::new(10), 0);
    for _ in 0..3000 {
        let m = small(&mut d);
        let whole = plain(&m, 2000);
        let every: Vec<usize> = (1..m.p).collect();
        let splits = every.iter().map(|&cut| vec![cut]).chain([every.clone(), every.iter().copied().step_by(2).collect()]);
        for places in splits {
            match built(&m, &places, 2000) {
                Some(rows) => assert_eq!(sorted(&rows, m.q), sorted(&whole, m.q), "{m:?} at {places:?}"),
                None => wide += 1,
            }
        }
    }
    assert!(wide < 300, "{wide} splits are refused by 25");
}

#[test]
fn pauses_and_full_lists_change_nothing() {
    let mut d = Draw::new(11);
    for _ in 0..400 {
        let m = small(&mut d);
        let (second, rows) = (group(&m, 1, m.p), plain(&group(&m, 0, 1), 2000));
        let (mut once, mut often) = (blank(m.q, rows.len() / m.q, 2000), blank(m.q, rows.len() / m.q, 0));
        often.list.clear();
        if start(&second, &rows, &mut once) != Answer::Started {
            continue;
        }
        assert_eq!(start(&second, &rows, &mut often), Answer::Started);
        assert_eq!(resume(&second, &rows, &mut once, u64::MAX), Answer::Complete);
        loop {
            let before = often.clone();
            match resume(&second, &rows, &mut often, d.between(0, 1) as u64) {
                Answer::Paused => assert!(often.record[STEPS] <= before.record[STEPS] + 1),
                Answer::Complete => break,
                refused => {
                    assert_eq!((refused, &often), (Answer::refused(11), &before), "{m:?}");
                    often.list.resize(often.list.len() + m.q, 77);
                }
            }
        }
        let whole = once.rows(m.q).concat();
        assert_eq!(sorted(&often.rows(m.q).concat(), m.q), sorted(&whole, m.q), "{m:?}");
        assert!(resume(&second, &rows, &mut once, 0) == Answer::Complete && once.rows(m.q).concat() == whole, "a complete run stays as it is");
    }
}

#[test]
fn records_of_other_runs_are_refused() {
    let m = System::of(&[&[-1, 1, 2, -3], &[-1, 3, -2, -1]]);
    let (second, rows) = (group(&m, 1, 2), plain(&group(&m, 0, 1), 50));
    let mut s = blank(4, 6, 9);
    assert_eq!(start(&second, &rows, &mut s), Answer::Started);
    assert_eq!((s.record[KIND], s.record[HEIGHT], s.record[FOUND]), (DESKS, 6, 0));
    let unlike = |change: &dyn Fn(&mut State), number: u8| {
        let mut t = s.clone();
        change(&mut t);
        let before = t.clone();
        assert_eq!((resume(&second, &rows, &mut t, 5), &t), (Answer::refused(number), &before));
    };
    for kind in [0, 1, 2, 3, 5, 6, u64::MAX] {
        unlike(&|t| t.record[KIND] = kind, 6);
    }
    for length in [0, 1, 6, 8, 42] {
        unlike(&|t| t.record.resize(length, 0), 6);
        let mut t = s.clone();
        t.record.resize(length, 0);
        let before = t.clone();
        assert_eq!((start(&second, &rows, &mut t), &t), (Answer::refused(6), &before), "a start with a record of {length} words");
    }
    unlike(&|t| t.stack.truncate(35), 4);
    unlike(&|t| t.record[HEIGHT] = 7, 6);
    let mut t = s.clone();
    assert_eq!(library::resume(&second, &mut t, 5), Answer::refused(6));
    assert_eq!(t, s);
}
