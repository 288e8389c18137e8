//! The third demand on drawn maps of one equation, over series of calls: own ones with budgets of their own, and foreign ones that leave the run as it is.

use dezgula_tests::{draw, draw::Draw, library, Answer, State, System};

/// The largest positive coefficient plus the largest size of a negative one, or 1 if that is 0.
fn depth(m: &System) -> u64 {
    let positive = m.coefs.iter().copied().max().unwrap_or(0).max(0);
    let negative = m.coefs.iter().copied().min().unwrap_or(0).min(0);
    ((positive - negative) as u64).max(1)
}

/// C(n, k)
fn choose(n: u64, k: u64) -> u64 {
    (1..=k).fold(1, |c, i| c * (n - k + i) / i)
}

fn most_steps(m: &System) -> u64 {
    choose(depth(m) + m.q as u64, m.q as u64) - 1
}

fn one_equation(d: &mut Draw) -> System {
    loop {
        let q = d.between(1, 6);
        let size = d.of(&[0, 1, 2, 4, 9, 20]);
        let coefs = (0..q).map(|_| d.between(0, 2 * size) as i32 - size as i32).collect();
        let m = System { p: 1, q, coefs };
        if most_steps(&m) <= 20_000 {
            return m;
        }
    }
}

fn sums_within(m: &System, s: &State) -> bool {
    let sum = |row: &[u32]| row[..m.q].iter().map(|&x| u64::from(x)).sum::<u64>();
    s.stack.chunks(m.q + 1).take(s.height()).all(|row| sum(row) <= depth(m))
}

/// A call of another map, or a bad one, that is handed the run's own tables and record and leaves them.
fn foreign(d: &mut Draw, m: &System, s: &mut State) {
    let before = s.clone();
    let mut other = draw::system(d, 2, m.q);
    match d.between(0, 3) {
        0 => drop(library::resume(&other, s, 0)),
        1 => {
            other.coefs[0] = 10_001;
            assert_eq!(library::start(&other, s), Answer::Refused { number: 7, value: 1 });
        }
        2 => {
            other.coefs.pop();
            assert_eq!(library::resume(&other, s, 1_000), Answer::refused(3));
        }
        _ => {
            other.p = 9;
            assert_eq!(library::start(&other, s), Answer::refused(1));
        }
    }
    assert_eq!(*s, before);
}

#[test]
fn ends_within_its_bound() {
    let mut d = Draw::new(21);
    let mut steps = 0;
    for _ in 0..2_000 {
        let m = one_equation(&mut d);
        let bound = most_steps(&m);
        let mut s = State::blank(m.q, bound as usize);
        assert_eq!(library::start(&m, &mut s), Answer::Started);
        let (mut allowed, mut last) = (0, Answer::Started);
        while allowed < bound {
            let budget = d.of(&[0, 1, 1, 2, 7, bound / 3]);
            last = library::resume(&m, &mut s, budget);
            allowed += budget;
            assert!(last == Answer::Paused || last == Answer::Complete, "{m:?}: {last:?}");
            assert!(s.steps() <= bound && s.steps() <= allowed && sums_within(&m, &s) && s.deepest() <= depth(&m), "{m:?}");
            if d.one_in(3) {
                foreign(&mut d, &m, &mut s);
            }
        }
        assert_eq!(last, Answer::Complete, "{m:?}");
        steps += s.steps();
    }
    println!("{steps} steps");
}
