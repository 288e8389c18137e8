//! Several runs at a time against the same runs alone: drawn maps, in turns of a drawn length, call after call to the end.

use dezgula_tests::library::{self, ROUND, TURN};
use dezgula_tests::{draw, draw::Draw, model, Answer, State, System, DEEPEST, KIND, STEPS, WORDS};

const SERVED: u8 = 110;
const SCHEDULE: u8 = 27;

fn at(i: usize) -> usize {
    2 + TURN * i
}

fn number(a: Answer) -> [u64; 2] {
    match a {
        Answer::Complete => [0, 0],
        Answer::Started => [100, 0],
        Answer::Paused => [101, 0],
        Answer::Refused { number, value } => [number.into(), value as u64],
    }
}

/// Now and then a run's record is one that refuses to go on: it is left as it is.
#[test]
fn each_run_as_alone() {
    let mut d = Draw::new(14);
    for _ in 0..300 {
        let count = d.between(1, 8);
        let maps: Vec<System> = (0..count)
            .map(|_| {
                let (p, q) = (d.between(1, 2), d.between(1, 3));
                draw::system(&mut d, p, q)
            })
            .collect();
        let mut alone: Vec<State> = maps.iter().map(|m| State::blank(m.q, 40)).collect();
        let (mut shares, mut coefs) = (vec![], vec![]);
        let mut whole = State { stack: vec![], list: vec![], record: vec![0; ROUND] };
        for (i, (m, s)) in maps.iter().zip(&mut alone).enumerate() {
            model::start(m, s);
            match d.between(0, 19) {
                0 => s.record[KIND] = d.of(&[1, 2, 3, 4, 5, u64::MAX]),
                1 => s.record[DEEPEST] = d.of(&[16_000_000, 16_000_001, u64::MAX]),
                _ => {}
            }
            shares.push([m.p, m.q, coefs.len(), m.coefs.len(), whole.stack.len(), s.stack.len(), whole.list.len(), s.list.len()]);
            coefs.extend(&m.coefs);
            whole.stack.extend(&s.stack);
            whole.list.extend(&s.list);
            whole.record[at(i)..at(i) + WORDS].copy_from_slice(&s.record);
        }
        let quantum = d.of(&[1, 2, 3, 10, 100]);
        let mut another = whole.clone();
        another.record.resize(d.of(&[0, 1, ROUND - TURN, ROUND - 1, ROUND + 1, 100]), 0);
        let before = another.clone();
        assert_eq!((library::dispatch(quantum, 1, &shares, &coefs, &mut another), &another), (SCHEDULE, &before), "a dispatcher's record of another length");
        for _ in 0..40 {
            let before = whole.record.clone();
            assert_eq!(library::dispatch(quantum, 1, &shares, &coefs, &mut whole), SERVED);
            let unfinished: Vec<usize> = (0..count).filter(|&i| before[at(i)] > 0).collect();
            let last = before[0] as usize;
            let next = unfinished.iter().find(|&&i| i >= last).or(unfinished.first());
            let mut steps = 0;
            for (i, (m, s)) in maps.iter().zip(&mut alone).enumerate() {
                let turn = next == Some(&i);
                let answer = model::resume(m, s, if turn { quantum } else { 0 });
                steps += s.steps() - before[at(i) + STEPS];
                assert_eq!(whole.record[at(i)..at(i) + WORDS], s.record[..]);
                assert_eq!(whole.record[at(i) + WORDS..at(i) + TURN], number(answer));
            }
            assert_eq!(whole.record[0], next.map_or(before[0], |&i| i as u64 + 1));
            assert_eq!(whole.record[1], steps);
            assert_eq!(whole.stack, alone.iter().flat_map(|s| s.stack.clone()).collect::<Vec<_>>());
            assert_eq!(whole.list, alone.iter().flat_map(|s| s.list.clone()).collect::<Vec<_>>());
        }
    }
}
