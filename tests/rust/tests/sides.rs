//! Maps with right sides (document 02, Job 1): the library and the model on drawn maps and states, and both lists against every tuple of a small box.

use dezgula_tests::sides::{self, model, Lent, Sided, CAPPED, COUNTS};
use dezgula_tests::{boxes, draw::Draw, library, tally::Tally, Answer, Shown, State, System, FOUND, HEIGHT, KIND, SECOND, STEPS};

fn sided(rows: &[&[i32]], rights: &[i32]) -> Sided {
    Sided { map: System::of(rows), rights: rights.to_vec() }
}

/// One call on both sides.
fn both(tally: &mut Tally, m: &Sided, s: &mut Lent, ours: impl Fn(&mut Lent) -> Answer, theirs: impl Fn(&mut Lent) -> Answer) -> Answer {
    let before = s.clone();
    let mut expected = s.clone();
    let wanted = theirs(&mut expected);
    let answer = ours(s);
    assert_eq!((answer, &*s), (wanted, &expected), "{m:?} and {before:?}");
    tally.count(answer);
    answer
}

fn start(tally: &mut Tally, m: &Sided, s: &mut Lent) -> Answer {
    both(tally, m, s, |s| sides::start(m, s), |s| model::start(m, s))
}

fn resume(tally: &mut Tally, m: &Sided, s: &mut Lent, budget: u64) -> Answer {
    both(tally, m, s, |s| sides::resume(m, s, budget), |s| model::resume(m, s, budget))
}

/// A whole run with ample room: both lists and the steps.
fn whole(m: &Sided) -> (Vec<Vec<u32>>, Vec<Vec<u32>>, u64) {
    let mut s = Lent::blank(m.map.q, [50, 50]);
    assert_eq!(sides::start(m, &mut s), Answer::Started);
    assert_eq!(sides::resume(m, &mut s, 100_000), Answer::Complete);
    (s.rows(m.map.q, 0), s.rows(m.map.q, 1), s.record[STEPS])
}

#[test]
fn by_hand() {
    // right sides of zero: the plain list, and the zero tuple
    assert_eq!(whole(&sided(&[&[2, -3]], &[0])), (vec![vec![3, 2]], vec![vec![0, 0]], 7));
    // no tuple meets an odd right side
    assert_eq!(whole(&sided(&[&[2, -2]], &[1])).1, Vec::<Vec<u32>>::new());
    // one that a unit tuple meets
    assert_eq!(whole(&sided(&[&[3, -2]], &[3])).1, vec![vec![1, 0]]);
    assert_eq!(whole(&sided(&[&[1, 1, -1]], &[2])).1.len(), 3);
}

#[test]
fn drawn_runs() {
    let (mut d, mut tally) = (Draw::new(101), Tally::default());
    for _ in 0..10_000 {
        let m = sides::any_sided(&mut d);
        let rooms = [d.of(&[0, 1, 2, 5, 400]), d.of(&[0, 1, 2, 5, 400])];
        let mut s = Lent::blank(m.map.q, rooms);
        assert_eq!(start(&mut tally, &m, &mut s), Answer::Started);
        for _ in 0..d.between(1, 10) {
            let budget = d.of(&[0, 1, 2, 3, 10, 100, 300]);
            if resume(&mut tally, &m, &mut s, budget) == Answer::Complete && d.one_in(2) {
                break;
            }
        }
    }
    tally.has_met(&[Answer::Started, Answer::Complete, Answer::Paused], &[11]);
}

/// A pause after every step, and one call.
#[test]
fn pauses_at_every_step() {
    let (mut d, mut tally) = (Draw::new(102), Tally::default());
    for _ in 0..1_000 {
        let m = sides::any_sided(&mut d);
        let mut s = Lent::blank(m.map.q, [60, 60]);
        assert_eq!(sides::start(&m, &mut s), Answer::Started);
        let mut at_once = s.clone();
        let mut answer = Answer::Paused;
        for _ in 0..200 {
            answer = resume(&mut tally, &m, &mut s, 1);
        }
        assert_eq!(sides::resume(&m, &mut at_once, 200), answer);
        assert_eq!(at_once, s, "{m:?}");
    }
    tally.has_met(&[Answer::Complete, Answer::Paused], &[]);
}

/// 11 is about the row's own table: with room for one row more in that table the run goes on, with none in the other.
#[test]
fn either_list_full() {
    let mut d = Draw::new(103);
    let mut met = [0, 0];
    for _ in 0..2_000 {
        let m = sides::any_sided(&mut d);
        let q = m.map.q;
        let mut s = Lent { lists: [Vec::new(), Vec::new()], ..Lent::blank(q, [0, 0]) };
        assert_eq!(sides::start(&m, &mut s), Answer::Started);
        for _ in 0..30 {
            if sides::resume(&m, &mut s, 2_000) != Answer::refused(11) {
                break;
            }
            assert_eq!(sides::resume(&m, &mut s, 2_000), Answer::refused(11), "the same call again refuses again");
            let at = s.stack[(s.record[HEIGHT] as usize - 1) * (q + 2)] as usize;
            assert_eq!(s.lists[at].len(), s.record[COUNTS[at]] as usize * q);
            s.lists[at].extend(vec![7; q]);
            let found = s.record[COUNTS[at]];
            assert_ne!(sides::resume(&m, &mut s, 1), Answer::refused(11));
            assert_eq!(s.record[COUNTS[at]], found + 1);
            met[at] += 1;
        }
    }
    println!("{met:?}");
    assert!(met.iter().all(|&n| n > 100), "{met:?}");
}

#[test]
fn states_in_order() {
    let (mut d, mut tally) = (Draw::new(104), Tally::default());
    for _ in 0..40_000 {
        let m = sides::any_sided(&mut d);
        let mut s = sides::state(&mut d, m.map.q);
        for _ in 0..d.between(1, 3) {
            let budget = d.of(&[0, 1, 2, 10, 50]);
            resume(&mut tally, &m, &mut s, budget);
        }
    }
    tally.has_met(&[Answer::Complete, Answer::Paused], &[11, 12, 14]);
}

#[test]
fn damaged_states_and_maps() {
    let (mut d, mut tally) = (Draw::new(105), Tally::default());
    for _ in 0..60_000 {
        let mut m = sides::any_sided(&mut d);
        let mut s = sides::state(&mut d, m.map.q);
        for _ in 0..d.between(0, 2) {
            sides::damage_state(&mut d, m.map.q, &mut s);
        }
        for _ in 0..d.of(&[0, 0, 1, 2]) {
            sides::damage_sided(&mut d, &mut m);
        }
        start(&mut tally, &m, &mut s.clone());
        let budget = d.of(&[0, 1, 3, 20]);
        resume(&mut tally, &m, &mut s, budget);
    }
    tally.has_met(&[Answer::Started, Answer::Complete, Answer::Paused], &[1, 2, 3, 4, 6, 7, 11, 12, 14, 15]);
}

/// "A record of one kind of run .. given to a continuing call of another kind is 6."
#[test]
fn records_of_another_kind() {
    let m = sided(&[&[2, -3]], &[1]);
    let mut s = Lent::blank(2, [5, 5]);
    assert_eq!(sides::start(&m, &mut s), Answer::Started);
    assert_eq!(s.record[KIND], CAPPED);
    let mut plain = State { stack: s.stack.clone(), list: s.lists[0].clone(), record: s.record.clone() };
    assert_eq!(library::resume(&m.map, &mut plain, 10), Answer::refused(6));
    assert_eq!(library::start(&m.map, &mut plain), Answer::Started);
    s.record = plain.record;
    assert_eq!(sides::resume(&m, &mut s, 10), Answer::refused(6));
}

#[test]
fn rows_of_either_list() {
    let mut d = Draw::new(106);
    let mut seen = std::collections::BTreeMap::<Shown, usize>::new();
    for _ in 0..60_000 {
        let q = if d.one_in(8) { d.of(&[0, 16, 17, usize::MAX]) } else { d.between(1, 15) };
        let lists = [0, 1].map(|_| (0..d.between(0, 60)).map(|_| d.word() as u32).collect::<Vec<u32>>());
        let at = if d.one_in(8) { d.of(&[2, 3, usize::MAX]) } else { d.between(0, 1) };
        let found = if d.one_in(8) { usize::MAX } else { d.between(0, 12) };
        let n = if d.one_in(16) { usize::MAX } else { d.between(0, 12) };
        let mut out: Vec<u32> = (0..d.between(0, 20)).map(|_| d.word() as u32).collect();
        let mut expected = out.clone();
        let wanted = model::row(&lists, at, q, found, n, &mut expected);
        let shown = sides::row(&lists, at, q, found, n, &mut out);
        assert_eq!((shown, &out), (wanted, &expected), "row {n} at {at} of {lists:?}, q {q}, found {found}");
        *seen.entry(shown).or_default() += 1;
    }
    println!("{seen:?}");
    assert!(seen.len() == 4 && seen.values().all(|&n| n >= 20), "{seen:?}");
}

/// What is listed in a box is minimal there, and once finished it is all that is: at 0 for A x = 0, at 1 for A x = b.
#[test]
fn boxes_of_both_lists() {
    let mut d = Draw::new(107);
    let mut complete = 0;
    for _ in 0..3_000 {
        let (p, q) = (d.between(1, 3), d.between(1, 5));
        let size = d.of(&[1, 2, 3, 5]);
        let mut small = |n: usize| (0..n).map(|_| d.between(0, 2 * size) as i32 - size as i32).collect::<Vec<i32>>();
        let m = Sided { map: System { p, q, coefs: small(p * q) }, rights: small(p) };
        let mut s = Lent::blank(q, [2_000, 2_000]);
        assert_eq!(sides::start(&m, &mut s), Answer::Started);
        let answer = sides::resume(&m, &mut s, 20_000);
        let side = [200, 200, 140, 26, 11, 6][q];
        let zero = vec![0; q];
        for (at, rights) in [vec![0; p], m.rights.clone()].iter().enumerate() {
            let listed = boxes::within(&s.rows(q, at), &zero, side);
            let minimal = boxes::minimal_meeting(&m.map, rights, &zero, side, at == 1);
            assert!(listed.iter().all(|row| minimal.contains(row)), "{m:?} at {at}");
            assert!(answer != Answer::Complete || listed == minimal, "{m:?} at {at}");
        }
        assert_eq!((s.rows(q, 0).len() as u64, s.rows(q, 1).len() as u64), (s.record[FOUND], s.record[SECOND]));
        complete += usize::from(answer == Answer::Complete);
    }
    println!("{complete} complete");
    assert!(complete > 1_500);
}
