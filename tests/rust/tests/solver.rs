//! The engine's solver on drawn maps: the same set as the walk's, and in a box just its minimal solutions; saved and loaded at every pause; equations in another
//! order, and equations that say nothing new.

use dezgula::{Plain, Progress, Solver};
use dezgula_tests::{boxes, draw::Draw, System};

fn small(d: &mut Draw) -> System {
    let (p, q) = (d.between(1, 4), d.between(1, 6));
    let size = d.of(&[1, 2, 3, 5]);
    let coefs = (0..p * q).map(|_| d.between(0, 2 * size) as i32 - size as i32).collect();
    System { p, q, coefs }
}

fn system(m: &System) -> dezgula::System {
    dezgula::System::new(m.coefs.chunks(m.q)).unwrap()
}

/// The whole list, in rising order.
fn whole(m: &System) -> Vec<Vec<u32>> {
    system(m).basis().unwrap().sorted().into_iter().map(<[u32]>::to_vec).collect()
}

#[test]
fn the_same_set_as_the_walk() {
    let mut d = Draw::new(27);
    let mut walked = 0;
    for _ in 0..6_000 {
        let m = small(&mut d);
        let mut run = system(&m).start(Plain).unwrap();
        if run.resume(100_000).unwrap() == Progress::Complete {
            assert_eq!(whole(&m), run.to_list().sorted(), "{m:?}");
            walked += 1;
        }
    }
    assert!(walked > 5_500, "{walked}");
}

#[test]
fn in_a_box_just_its_minimal_solutions() {
    let mut d = Draw::new(28);
    for _ in 0..1_500 {
        let m = small(&mut d);
        let rows = whole(&m);
        assert!(boxes::apart(&rows), "{m:?}");
        let (lower, side) = (vec![0; m.q], if m.q > 4 { 3 } else { 5 });
        assert_eq!(boxes::within(&rows, &lower, side), boxes::minimal(&m, &lower, side, false), "{m:?}");
    }
}

#[test]
fn saved_and_loaded_at_every_pause() {
    let mut d = Draw::new(29);
    let mut pauses = 0;
    for _ in 0..2_000 {
        let m = small(&mut d);
        let mut solver = system(&m).solver().unwrap();
        while solver.work(d.of(&[1, 2, 9, 100])).unwrap() == Progress::Paused {
            pauses += 1;
            let told = solver.told();
            solver = Solver::load(&solver.save()).unwrap();
            assert_eq!((solver.told(), solver.system()), (told, system(&m)));
        }
        assert_eq!(solver.to_list().unwrap().sorted(), whole(&m), "{m:?}");
    }
    assert!(pauses > 5_000, "{pauses}");
}

#[test]
fn equations_in_another_order_and_more_of_them() {
    let mut d = Draw::new(30);
    for _ in 0..1_000 {
        let mut m = small(&mut d);
        let rows = whole(&m);
        let turned: Vec<i32> = m.coefs.chunks(m.q).rev().flatten().copied().collect();
        m.coefs = turned;
        for _ in 0..d.between(0, 20) {
            // a multiple of one equation, or of one beside another
            let (e, f, by) = (d.between(0, m.p - 1), d.between(0, m.p - 1), d.of(&[-1, 0, 1, 2]));
            let sum: Vec<i32> = (0..m.q).map(|j| by * m.coefs[e * m.q + j] - m.coefs[f * m.q + j]).collect();
            if sum.iter().all(|c| c.abs() <= 100) {
                m.coefs.extend(sum);
                m.p += 1;
            }
        }
        assert_eq!(whole(&m), rows, "{m:?}");
    }
}
