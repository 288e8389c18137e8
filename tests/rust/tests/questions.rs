//! Why a tuple is not in a list, and what it is made of: drawn questions, and every tuple of small boxes.

use dezgula_tests::questions::{self, Most, Parts, Reason, ENGINE, WALK};
use dezgula_tests::{draw::Draw, library, Answer, State, System};
use std::collections::BTreeMap;

fn kind(why: Reason) -> String {
    match why {
        Reason::Refused(number, _) => format!("refused {number}"),
        other => format!("{other:?}").split('(').next().unwrap_or("").to_string(),
    }
}

/// A question: mostly a small map, with rows that often lie at or below the tuple; now and then something out of order.
fn drawn(d: &mut Draw, most: Most) -> (System, Vec<u32>, usize, Vec<u32>) {
    let (p, q) = (d.of(&[0, 1, 1, 1, 2, 3, most.0, most.0 + 1]), d.of(&[0, 1, 2, 2, 3, 4, most.1, most.1 + 1]));
    let size = p * q + if d.one_in(20) { 1 } else { 0 };
    let mut coefs: Vec<i32> = (0..size).map(|_| d.of(&[0, 0, 0, 1, -1, 2, -3])).collect();
    if size > 0 && d.one_in(20) {
        coefs[d.between(0, size - 1)] = d.of(&[10_001, -10_001, 10_000]);
    }
    let mut tuple: Vec<u32> = (0..q + if d.one_in(20) { 1 } else { 0 }).map(|_| d.of(&[0, 0, 1, 2, 3, 6])).collect();
    if !tuple.is_empty() && d.one_in(10) {
        let j = d.between(0, tuple.len() - 1);
        tuple[j] = d.of(&[1_000_000, 1_000_001, u32::MAX]);
    }
    let rows = d.between(0, 4);
    let mut list: Vec<u32> = (0..rows * q + d.between(0, 1)).map(|_| d.of(&[0, 0, 1, 2])).collect();
    for row in list.chunks_exact_mut(q.max(1)) {
        if tuple.len() == q && d.one_in(3) {
            row.iter_mut().zip(&tuple).for_each(|(r, x)| *r = x.saturating_sub((d.word() % 2) as u32));
        }
    }
    (System { p, q, coefs }, list, (rows + d.of(&[0, 0, 0, 1])).saturating_sub(d.of(&[0, 0, 0, 1])), tuple)
}

#[test]
fn drawn_questions() {
    let mut d = Draw::new(13);
    let mut seen = BTreeMap::<String, usize>::new();
    for i in 0..100_000 {
        let most = if i % 2 == 0 { WALK } else { ENGINE };
        let (m, list, found, tuple) = drawn(&mut d, most);
        let why = questions::reason(most, &m, &list, found, &tuple);
        assert_eq!(why, questions::expected_reason(most, &m, &list, found, &tuple), "{m:?} {list:?} {found} {tuple:?}");
        *seen.entry(kind(why)).or_default() += 1;
        let mut times = vec![9; d.between(0, 5)];
        let mut expected = times.clone();
        let wanted = questions::expected_parts(most, &m, &list, found, &tuple, &mut expected);
        assert_eq!((questions::decompose(most, &m, &list, found, &tuple, &mut times), &times), (wanted, &expected), "{m:?} {list:?} {found} {tuple:?}");
        *seen.entry(format!("parts {}", matches!(wanted, Parts::Made))).or_default() += 1;
    }
    println!("{seen:?}");
    for name in
        ["Zero", "Off", "Stands", "Above", "Unlisted", "refused 1", "refused 2", "refused 3", "refused 5", "refused 6", "refused 7", "refused 8", "parts true"]
    {
        assert!(seen.get(name).is_some_and(|&n| n > 20), "{name}: {seen:?}");
    }
}

/// Each tuple of a box, asked of the list of a run: after a complete run none is unlisted, and each solution is made of the rows.
#[test]
fn boxes() {
    let mut d = Draw::new(18);
    let (mut complete, mut solutions) = (0, 0);
    for _ in 0..400 {
        let (p, q) = (d.between(1, 2), d.between(1, 4));
        let m = System { p, q, coefs: (0..p * q).map(|_| d.between(0, 8) as i32 - 4).collect() };
        let mut s = State::blank(q, 400);
        assert_eq!(library::start(&m, &mut s), Answer::Started);
        let whole = library::resume(&m, &mut s, d.of(&[5, 20_000, 20_000])) == Answer::Complete;
        complete += usize::from(whole);
        let side = [0, 60, 20, 9, 6][q] + 1_u32;
        for code in 0..side.pow(q as u32) {
            let tuple: Vec<u32> = (0..q as u32).map(|j| code / side.pow(j) % side).collect();
            let why = questions::reason(WALK, &m, &s.list, s.found(), &tuple);
            assert_eq!(why, questions::expected_reason(WALK, &m, &s.list, s.found(), &tuple), "{m:?} {tuple:?}");
            let mut times = vec![9; s.found()];
            let mut expected = times.clone();
            let parts = questions::decompose(WALK, &m, &s.list, s.found(), &tuple, &mut times);
            assert_eq!((parts, &times), (questions::expected_parts(WALK, &m, &s.list, s.found(), &tuple, &mut expected), &expected), "{m:?} {tuple:?}");
            if whole {
                assert!(why != Reason::Unlisted && parts != Parts::Unlisted, "{m:?} {tuple:?}");
            }
            solutions += usize::from(parts == Parts::Made);
        }
    }
    println!("{complete} complete, {solutions} solutions taken apart");
    assert!(complete > 200 && solutions > 1_000);
}
