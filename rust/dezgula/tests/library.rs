//! The crate as a program uses it: every kind of run, pauses, lists that grow, limits, solvers kept in a file, several runs in turns, refusals, threads.

use dezgula::calls::{self, EngineLent, EngineRecord};
use dezgula::{
    numbers, text, Desk, Error, InTurn, Kind, List, LowerBound, Made, Plain, Progress, Reason, Rights, Rows, Run, Several, SingleFile, Solver, System,
    Training, TrainingLowerBound,
};

/// Three equations with more than 64 minimal solutions, for which lists have to grow several times.
fn many() -> System {
    System::new([[3, -2, 1, -4, 2, -1, 5, -3], [1, 1, -2, 1, -3, 2, -1, 1], [-1, 2, 1, -1, -1, 1, -2, 1]]).unwrap()
}

fn minimal_in_box(system: &System, side: u32) -> Vec<Vec<u32>> {
    let mut tuples = vec![vec![]];
    for _ in 0..system.unknowns() {
        tuples = tuples.iter().flat_map(|t: &Vec<u32>| (0..=side).map(move |x| [&t[..], &[x]].concat())).collect();
    }
    let zero = |row: &[i32], t: &[u32]| row.iter().zip(t).map(|(&a, &x)| i64::from(a) * i64::from(x)).sum::<i64>() == 0;
    let solutions: Vec<_> = tuples.into_iter().filter(|t| t.iter().any(|&x| x > 0) && system.rows().all(|row| zero(row, t))).collect();
    let below = |s: &Vec<u32>, t: &Vec<u32>| s != t && s.iter().zip(t).all(|(x, y)| x <= y);
    solutions.iter().filter(|t| !solutions.iter().any(|s| below(s, t))).cloned().collect()
}

#[test]
fn the_engine_and_the_walk_list_the_same() {
    for rows in [vec![vec![2, -3, 1, -1]], vec![vec![-1, 1, 2, -3], vec![-1, 3, -2, -1]], vec![vec![1, 1, -2, -2]], vec![vec![1, 2, 3, 4]]] {
        let system = System::new(rows).unwrap();
        let walked = system.start(Plain).unwrap().complete().unwrap().to_list();
        assert_eq!(walked.sorted(), system.basis().unwrap().sorted());
        assert_eq!(walked.sorted(), minimal_in_box(&system, 6), "{system:?}");
    }
}

#[test]
fn lists_grow_and_pauses_change_nothing() {
    let system = many();
    let mut at_once = system.start(Plain).unwrap();
    at_once.complete().unwrap();
    assert!(at_once.list().len() > 64, "{}", at_once.list().len());
    assert_eq!(at_once.to_list().sorted(), system.basis().unwrap().sorted());
    for budget in [1, 7, 1000] {
        let (mut often, mut calls) = (system.start(Plain).unwrap(), 0);
        while often.resume(budget).unwrap() == Progress::Paused {
            calls += 1;
            assert_eq!(often.steps(), calls * budget, "a budget is used up, also where a list grew on the way");
        }
        assert_eq!((often.to_list(), often.record()), (at_once.to_list(), at_once.record()));
    }
}

#[test]
fn a_limit_is_kept_and_can_be_raised() {
    let mut run = many().start(Plain).unwrap();
    let refused = run.limit(5).complete().unwrap_err();
    assert_eq!((refused.number(), refused.place(), run.list().len()), (numbers::LIST_FULL, None, 5));
    assert_eq!(run.complete().unwrap_err(), refused);
    run.limit(usize::MAX).complete().unwrap();
    assert_eq!(run.to_list().sorted(), many().basis().unwrap().sorted());

    let mut solver = many().solver().unwrap();
    let refused = solver.limit(1).complete().unwrap_err();
    assert_eq!((refused.number(), solver.to_list()), (numbers::ENGINE_FULL, None));
    assert_eq!(solver.limit(usize::MAX).complete().unwrap().sorted(), many().basis().unwrap().sorted());
}

#[test]
fn the_engine_pauses() {
    let mut solver = many().solver().unwrap();
    let mut calls = 0;
    while solver.work(50).unwrap() == Progress::Paused {
        assert!(solver.rows().is_none());
        calls += 1;
    }
    assert!(calls > 3 && solver.told().steps > 150, "{calls} {:?}", solver.told());
    assert_eq!(solver.to_list().unwrap().sorted(), many().basis().unwrap().sorted());
    assert_eq!(solver.rows().unwrap().collect::<Vec<_>>(), solver.to_list().unwrap().iter().collect::<Vec<_>>());
}

/// After every few turns the solver is kept, and what was kept goes on in its place.
#[test]
fn a_solver_is_saved_and_gone_on_with() {
    let whole = many().basis().unwrap();
    for budget in [40, 500] {
        let mut solver = many().solver().unwrap();
        while solver.work(budget).unwrap() == Progress::Paused {
            let kept = solver.save();
            let loaded = Solver::load(&kept).unwrap();
            assert_eq!((loaded.told(), loaded.system(), loaded.save()), (solver.told(), many(), kept));
            solver = loaded;
        }
        assert_eq!(solver.to_list().unwrap().sorted(), whole.sorted());
        let mut complete = Solver::load(&solver.save()).unwrap();
        assert_eq!(complete.work(1).unwrap(), Progress::Complete);
        assert_eq!(complete.to_list(), solver.to_list());
    }
}

/// Bytes may be any: they are refused, or a solver goes on with them and leaves no table, which valgrind sees.
#[test]
fn damaged_bytes_of_a_solver() {
    let mut solver = many().solver().unwrap();
    assert_eq!(solver.work(500).unwrap(), Progress::Paused);
    let kept = solver.save();
    for length in [0, 1, 4, 11, kept.len() - 4, kept.len() - 1] {
        assert_eq!(Solver::load(&kept[..length]).unwrap_err().number(), numbers::OUT_OF_ORDER);
    }
    let (mut seed, mut loaded) = (7_u64, 0);
    let mut draw = |n: usize| {
        seed = seed.wrapping_mul(6_364_136_223_846_793_005).wrapping_add(1_442_695_040_888_963_407);
        (seed >> 33) as usize % n
    };
    for _ in 0..300 {
        let mut damaged = kept.clone();
        for _ in 0..1 + draw(3) {
            let among = [damaged.len(), 280][draw(2)];
            let place = draw(among);
            damaged[place] = if draw(2) == 0 { damaged[place] ^ 1 << draw(8) } else { 0xff };
        }
        let Ok(mut solver) = Solver::load(&damaged) else { continue };
        loaded += 1;
        let _ = solver.work(200);
        drop((solver.save(), solver.system(), solver.to_list(), solver.told()));
    }
    assert!(loaded > 20, "{loaded}");
}

/// 2 x = 3 y by x = 3 z and y = 2 z, where z = x - y: what shows it, one number changed, and the list without z.
#[test]
fn a_map_in_the_place_of_another() {
    let (map, shown) = (
        calls::Map { p: 1, q: 2, coefs: &[2, -3] },
        calls::Reformulation {
            further: 1,
            extended: &[2, -3, 0, 1, -1, -1],
            equations: 2,
            other: &[1, 0, -3, 0, 1, -2],
            onto: &[1, 1, -3, 1, 1, -2],
            back: &[1, -2, 3, 1, -1, 1],
            above: &[2, -1],
        },
    );
    assert_eq!(calls::engine_reformulates(map, shown).number(), numbers::ENGINE_SAME_LOOPS);
    assert_eq!(calls::engine_reformulates(map, calls::Reformulation { above: &[1, 0], ..shown }).number(), numbers::ENGINE_NOT_SHOWN);
    assert_eq!(calls::engine_reformulates(map, calls::Reformulation { back: &[], ..shown }).number(), numbers::COUNT);
    let (list, mut out) = (calls::Found { rows: &[3, 2, 1], found: 1 }, [9; 3]);
    assert_eq!(calls::engine_project(2, 1, list, &mut out[..1]).number(), numbers::OUTPUT_SHORT);
    assert_eq!(calls::engine_project(2, 1, list, &mut out).number(), numbers::ENGINE_PROJECTED);
    assert_eq!(out, [3, 2, 9]);
}

/// The engine's own calls in lent tables: one equation after the other, with room for so many rows.
#[test]
fn the_calls_of_the_engine() {
    const ROOM: usize = 200;
    let system = System::new([[-1, 1, 2, -3], [-1, 3, -2, -1]]).unwrap();
    let coefs: Vec<i32> = system.rows().flatten().copied().collect();
    let (mut equations, mut basis, mut sizes, mut table, mut values) = ([0; 8], [0; 4 * ROOM], [0; ROOM], [0; 4 * ROOM], [0; ROOM]);
    let (mut words, mut degrees, mut marks, mut mothers, mut record) = ([0; ROOM], [0; ROOM], [0; ROOM], [0; ROOM], EngineRecord::default());
    let mut run = EngineLent {
        equations: &mut equations,
        basis: &mut basis,
        sizes: &mut sizes,
        table: &mut table,
        values: &mut values,
        words: &mut words,
        degrees: &mut degrees,
        marks: &mut marks,
        mothers: &mut mothers,
        record: &mut record,
    };
    assert_eq!(calls::engine_start(calls::Map { p: 2, q: 4, coefs: &coefs }, &mut run).number(), numbers::STARTED);
    assert_eq!((run.record.count, run.record.equation), (4, 2));
    assert_eq!(calls::engine_take(2, 4, &mut run, 2, 4).number(), numbers::ENGINE_EQUATION);
    assert_eq!(calls::engine_combine(2, 4, &mut run, 1, 0, 0, 1).number(), numbers::ENGINE_OPERATION);
    assert_eq!(calls::engine_combine(2, 4, &mut run, 1, 1, 0, -1).number(), numbers::STARTED);
    assert_eq!(run.equations[4..], [0, 2, -4, 2]);
    for e in [0, 1] {
        assert_eq!(calls::engine_take(2, 4, &mut run, e, 4).number(), numbers::STARTED);
        while run.record.equation < 2 {
            assert!([numbers::PAUSED, numbers::COMPLETE].contains(&calls::engine_resume(2, 4, &mut run, 3).number()));
        }
    }
    assert_eq!(calls::engine_resume(2, 4, &mut run, 1).number(), numbers::COMPLETE);
    let count = run.record.count as usize;
    let (listed, map) = (run.basis[..4 * count].to_vec(), calls::Map { p: 2, q: 4, coefs: &coefs });
    assert_eq!(calls::engine_start_from(map, calls::Found { rows: &listed[1..], found: count }, &mut run).number(), numbers::OUT_OF_ORDER);
    assert_eq!(calls::engine_start_from(map, calls::Found { rows: &listed, found: count }, &mut run).number(), numbers::STARTED);
    assert_eq!((run.record.count as usize, run.record.done, &run.basis[..4 * count]), (count, 0, &listed[..]));
    assert_eq!(List::new(4, basis.chunks(4).take(count)).unwrap().sorted(), system.basis().unwrap().sorted());
}

#[test]
fn a_start_from_a_list() {
    let (first, further) = (System::new([[-1, 1, 2, -3]]).unwrap(), System::new([[-1, 3, -2, -1]]).unwrap());
    let whole = System::new([[-1, 1, 2, -3], [-1, 3, -2, -1]]).unwrap().basis().unwrap();
    let list = first.basis().unwrap();
    assert_eq!(further.solver_from(&list).unwrap().complete().unwrap().sorted(), whole.sorted());
    let mut parts = further.solver_from(&list).unwrap();
    while parts.work(1).unwrap() == Progress::Paused {
        parts = Solver::load(&parts.save()).unwrap();
    }
    assert_eq!(parts.to_list().unwrap().sorted(), whole.sorted());
    assert_eq!(parts.system(), further);
    let number = |list: &List| further.solver_from(list).unwrap_err().number();
    assert_eq!(number(&List::new(4, [[0, 0, 0, 0]]).unwrap()), numbers::OUT_OF_ORDER);
    assert_eq!(number(&List::new(4, [[1, 0, 0, 1_000_001]]).unwrap()), numbers::OUT_OF_ORDER);
    assert_eq!(number(&List::new(3, [[1, 0, 0]]).unwrap()), numbers::TUPLE_LENGTH);
    let none: [[u32; 4]; 0] = [];
    assert_eq!(further.solver_from(&List::new(4, none).unwrap()).unwrap().complete().unwrap().len(), 0);
}

// ---- several runs in turns

#[test]
fn several_go_on_as_alone() {
    let mut systems = vec![many(), System::new([[2, -3, 1]]).unwrap(), System::new([[1, 2]]).unwrap(), System::new([[97, -89, 83, -79]]).unwrap()];
    systems.extend(systems.clone());
    for quantum in [1, 50, 100_000] {
        let mut several = Several::new(quantum).unwrap();
        for (place, system) in systems.iter().enumerate() {
            assert_eq!(several.add(system).unwrap(), place);
        }
        assert_eq!(several.add(&systems[0]).unwrap_err().number(), numbers::SCHEDULE);
        assert_eq!(several.serve(20).unwrap(), several.runs().filter(|run| run.state == Ok(Progress::Paused)).count());
        several.complete().unwrap();
        for (run, system) in several.runs().zip(&systems) {
            let mut alone = system.start(Plain).unwrap();
            alone.complete().unwrap();
            assert_eq!((run.state, run.steps, run.list.to_list()), (Ok(Progress::Complete), alone.steps(), alone.to_list()));
            assert_eq!(run.system, system);
        }
    }
}

#[test]
fn several_are_limited_refused_and_added_later() {
    assert_eq!(Several::new(0).unwrap_err().number(), numbers::SCHEDULE);
    let mut several = Several::new(10).unwrap();
    assert_eq!((several.serve(5).unwrap(), several.is_empty(), several.run(0).is_none()), (0, true, true));
    assert_eq!(several.add(&System::new([[1, 10_001]]).unwrap()).unwrap_err().place(), Some(2));
    assert!(several.is_empty());
    several.add(&many()).unwrap();
    assert_eq!(several.serve(3).unwrap(), 1);
    assert_eq!(several.run(0).unwrap().steps, 30);
    several.add(&System::new([[2, -3]]).unwrap()).unwrap();
    several.limit(5).complete().unwrap();
    let states: Vec<_> = several.runs().map(|run| (run.state.map_err(|refused| refused.number()), run.list.len())).collect();
    assert_eq!(states, [(Err(numbers::LIST_FULL), 5), (Ok(Progress::Complete), 1)]);
    assert_eq!(several.serve(1).unwrap(), 0);
    several.limit(usize::MAX).complete().unwrap();
    assert_eq!(several.run(0).unwrap().list.to_list(), many().start(Plain).unwrap().complete().unwrap().to_list());
}

#[test]
fn no_solutions() {
    let system = System::new([[1, 2]]).unwrap();
    let list = system.basis().unwrap();
    assert!(list.is_empty() && list.iter().next().is_none() && list.unknowns() == 2);
    assert_eq!(system.why(&list, &[1, 1]).unwrap(), Reason::Off { equation: 0, amount: 3 });
    assert_eq!(system.plan(&list, &[0, 0]).unwrap(), Made::Of(vec![]));
}

/// A ring of 20 activities, which goes round once, and one beside it.
#[test]
fn questions_about_large_maps() {
    let mut rows: Vec<Vec<i32>> = (0..20).map(|i| (0..20).map(|j| i32::from(j == i) - i32::from(j == (i + 1) % 20)).collect()).collect();
    rows.iter_mut().for_each(|row| row.push(0));
    let system = System::new(rows).unwrap();
    let list = system.basis().unwrap();
    assert_eq!(list.len(), 2);
    let (round, beside) = (list.iter().position(|row| row[0] == 1).unwrap(), list.iter().position(|row| row[20] == 1).unwrap());
    let mut plan = [3; 21];
    plan[20] = 5;
    assert_eq!(system.locate(&list, &plan).unwrap(), Some(1));
    assert_eq!(system.why(&list, &plan).unwrap(), Reason::Above { row: 1 });
    assert_eq!(system.why(&list, &list[round]).unwrap(), Reason::Stands { row: round });
    let mut times = vec![0; 2];
    (times[round], times[beside]) = (3, 5);
    assert_eq!(system.plan(&list, &plan).unwrap(), Made::Of(times));
    plan[7] = 4;
    assert_eq!(system.plan(&list, &plan).unwrap(), Made::Off { equation: 6, amount: -1 });
    assert_eq!(System::new([[1; 33]]).unwrap().why(&List::new(33, [[1; 33]]).unwrap(), &[0; 33]).unwrap_err().number(), numbers::UNKNOWNS);
}

fn goes_on<K: Kind + Clone>(system: &System, kind: K) -> Run<K> {
    let (mut at_once, mut often) = (system.start(kind.clone()).unwrap(), system.start(kind).unwrap());
    at_once.complete().unwrap();
    while often.resume(1).unwrap() == Progress::Paused {}
    assert_eq!((often.to_list(), often.record()), (at_once.to_list(), at_once.record()));
    at_once
}

#[test]
fn every_kind() {
    let system = System::new([[2, -3, 1]]).unwrap();
    let basis = system.basis().unwrap();
    assert_eq!(goes_on(&system, Plain).to_list().sorted(), basis.sorted());
    assert_eq!(goes_on(&system, Training).to_list().sorted(), basis.sorted());

    let rights = goes_on(&system, Rights(vec![5]));
    assert_eq!(rights.to_list().sorted(), basis.sorted());
    assert_eq!(rights.second_to_list().sorted(), [[0, 0, 5], [1, 0, 3], [2, 0, 1], [4, 1, 0]]);
    assert_eq!(system.with_rights([5]).unwrap().second_to_list(), rights.second_to_list());

    let above = goes_on(&system, LowerBound(vec![1, 0, 2]));
    assert_eq!(above.second_to_list().sorted(), basis.sorted());
    assert_eq!(above.to_list().sorted(), [[1, 2, 4], [2, 2, 2]]);
    let seated = goes_on(&system, TrainingLowerBound(vec![1, 0, 2]));
    assert_eq!((seated.to_list(), seated.second_to_list()), (above.to_list(), above.second_to_list()));

    let (first, second) = (System::new([[1, -1, 0]]).unwrap(), System::new([[0, 1, -2]]).unwrap());
    let desk = goes_on(&second, Desk(first.basis().unwrap()));
    assert_eq!(desk.to_list().sorted(), [[2, 2, 1]]);
    assert_eq!(System::desks([&first, &second]).unwrap(), desk.to_list());

    let ring = System::new([[1, 0, -1], [-1, 1, 0], [0, -1, 1]]).unwrap();
    let file = goes_on(&ring, SingleFile);
    assert_eq!(ring.listing(&file.to_list()).unwrap(), "1 2 3 order 1 3 2\n");
}

#[test]
fn refusals() {
    let refused = |result: Result<(), Error>| result.map_err(|e| (e.number(), e.place())).unwrap_err();
    let system = System::new([[1, -1]]).unwrap();
    assert_eq!(refused(System::new([[0; 0]; 0]).map(drop)), (1, None));
    assert_eq!(refused(System::new([[0; 0]]).map(drop)), (2, None));
    assert_eq!(refused(System::new([vec![1, -1], vec![1]]).map(drop)), (3, Some(2)));
    assert_eq!(refused(System::new([[1; 40]]).unwrap().basis().map(drop)), (2, None));
    assert_eq!(refused(System::new([[1; 100_000]]).unwrap().start(Plain).map(drop)), (2, None));
    assert_eq!(refused(System::new([[1], [20_000]]).unwrap().start(Plain).map(drop)), (7, Some(2)));
    assert_eq!(refused(system.with_rights([1, 2]).map(drop)), (3, None));
    assert_eq!(refused(system.with_rights([10_001]).map(drop)), (15, None));
    assert_eq!(refused(system.from_lower([1]).map(drop)), (5, None));
    assert_eq!(refused(system.from_lower([1, 1_000_001]).map(drop)), (8, None));
    assert_eq!(refused(System::new([[1; 7]]).unwrap().start(Training).map(drop)), (23, None));
    assert_eq!(refused(System::new([[1, -1], [-1, 0]]).unwrap().start(SingleFile).map(drop)), (26, Some(2)));
    assert_eq!(refused(System::desks([]).map(drop)), (1, None));
    let wide: Vec<[u32; 2]> = (0..65).map(|i| [i, i]).collect();
    assert_eq!(refused(system.start(Desk(List::new(2, wide).unwrap())).map(drop)), (25, None));
    assert_eq!(refused(List::new(2, [vec![1, 2], vec![1]]).map(drop)), (5, Some(2)));
    assert_eq!(refused(system.why(&List::new(3, [[1, 1, 1]]).unwrap(), &[1, 1]).map(drop)), (5, None));
    assert_eq!(refused(text::read_map("1 2\n1 -1").map(drop)), (9, Some(2)));
    assert_eq!(refused(text::read_equation("x1 = x9", 2).map(drop)), (16, Some(7)));
    assert_eq!(refused(text::read_equation("x1 = x9", usize::MAX).map(drop)), (2, None));
    assert_eq!(refused(text::read_list(&[1; 512]).map(drop)), (20, None));
    let error: Box<dyn std::error::Error + Send + Sync> = Box::new(text::read_system("x1 = 1\nx1 + = 1\n", 1).unwrap_err());
    assert_eq!(error.to_string(), "The text is no equation, or it names an unknown that is not there. (refusal 16, place 2, there at 6)");
}

/// What is asked of a type that goes to other threads, and is shared with them.
fn sent_and_shared<T: Send + Sync>() {}

#[test]
fn everything_may_be_sent_and_shared() {
    sent_and_shared::<(System, List, Rows<'_>, Error, Solver, Several, InTurn<'_>)>();
    sent_and_shared::<(Run<Plain>, Run<SingleFile>, Run<Rights>, Run<LowerBound>, Run<Desk>, Run<Training>, Run<TrainingLowerBound>)>();
    let mut solver = many().solver().unwrap();
    solver.complete().unwrap();
    let asked = || (solver.rows().unwrap().count(), solver.told(), solver.save());
    std::thread::scope(|threads| {
        let other = threads.spawn(asked);
        assert_eq!(asked(), other.join().unwrap());
    });
}

#[test]
fn runs_in_threads() {
    let mut run = many().start(Plain).unwrap();
    let mut solver = many().solver().unwrap();
    assert_eq!(run.resume(100).unwrap(), Progress::Paused);
    let walk = std::thread::spawn(move || run.complete().unwrap().to_list());
    let engine = std::thread::spawn(move || solver.complete().unwrap());
    assert_eq!(walk.join().unwrap().sorted(), engine.join().unwrap().sorted());
}

#[test]
fn the_version_is_that_of_the_crate() {
    assert_eq!(dezgula::version(), env!("CARGO_PKG_VERSION"));
}
