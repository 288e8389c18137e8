//! The calls of single-file maps and their listing, on drawn maps: rings, trees of rings, columns of zeros, and columns outside the profile.

use dezgula_tests::{draw, draw::Draw, library, model, Answer, Listed, State, System};
use std::collections::BTreeMap;

/// A map of the profile, and now and then one column that is not in it.
fn map(d: &mut Draw) -> System {
    let (p, q) = (d.between(1, 8), d.between(1, 10));
    let mut m = System { p, q, coefs: vec![0; p * q] };
    for j in 0..q {
        let (from, to) = (d.between(0, p - 1), d.between(0, p - 1));
        if from != to {
            m.coefs[from * q + j] = -1;
            m.coefs[to * q + j] = 1;
        }
    }
    if d.one_in(6) {
        let place = d.between(0, p * q - 1);
        m.coefs[place] = d.of(&[1, -1, 2, 0, 10_001]);
    }
    m
}

/// A list, spoilt in one way or not at all.
fn spoil(d: &mut Draw, q: usize, list: &mut [u32], found: usize) {
    if found == 0 {
        return;
    }
    let row = d.between(0, found - 1) * q;
    match d.between(0, 6) {
        0 => list[row..row + q].iter_mut().for_each(|x| *x *= 2),
        1 => list[row..row + q].fill(0),
        2 => list[row + d.between(0, q - 1)] ^= 1,
        3 => list[row + d.between(0, q - 1)] = u32::MAX,
        4 => {
            for j in 0..q {
                list[row + j] = list[row + j].saturating_add(list[j]);
            }
        }
        _ => {}
    }
}

#[test]
fn runs_and_listings() {
    let mut d = Draw::new(12);
    let mut answers = BTreeMap::<(u8, bool), usize>::new();
    for _ in 0..20_000 {
        let mut m = map(&mut d);
        let mut s = State::blank(m.q, d.of(&[0, 1, 5, 40]));
        for _ in 0..d.of(&[0, 0, 0, 1]) {
            draw::damage_system(&mut d, &mut m);
        }
        let mut expected = s.clone();
        let wanted = model::start_single_file(&m, &mut expected);
        assert_eq!((library::start_single_file(&m, &mut s), &s), (wanted, &expected), "start on {m:?}");
        for _ in 0..d.between(1, 3) {
            let budget = d.of(&[0, 3, 50, 10_000]);
            let wanted = model::resume_single_file(&m, &mut expected, budget);
            assert_eq!((library::resume_single_file(&m, &mut s, budget), &s), (wanted, &expected), "resume on {m:?}");
        }
        let found = if wanted == Answer::Started { s.found() } else { d.between(0, 3) };
        if wanted == Answer::Started && d.one_in(2) {
            spoil(&mut d, m.q, &mut s.list, found);
        }
        let found = if d.one_in(20) { found + d.between(1, 50) } else { found };
        let mut out: Vec<u8> = vec![0xa5; d.of(&[0, 10, 100, 2000])];
        let mut text = out.clone();
        let wanted = model::listing(&m, &s.list, found, &mut text);
        assert_eq!((library::listing(&m, &s.list, found, &mut out), &out), (wanted, &text), "listing of {found} of {:?} on {m:?}", s.list);
        let kind = match wanted {
            Listed::Written(bytes) => (0, bytes > 0),
            Listed::Refused { number, .. } => (number, false),
        };
        *answers.entry(kind).or_default() += 1;
    }
    println!("{answers:?}");
    for kind in [(0, true), (0, false), (1, false), (2, false), (3, false), (6, false), (7, false), (26, false), (29, false), (30, false)] {
        assert!(answers.get(&kind).is_some_and(|&n| n >= 20), "{kind:?} was hardly met");
    }
}
