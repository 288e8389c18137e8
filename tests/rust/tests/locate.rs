//! Document 02, Job 7: which row of a list is at or below a tuple.

use dezgula_tests::{draw::Draw, library, model, Located};
use std::collections::BTreeMap;

#[test]
fn a_few() {
    let list = [3, 2, 1, 5, 3, 2, 0];
    assert_eq!(library::locate(&list, 2, 3, &[4, 2]), Located::At(3));
    assert_eq!(library::locate(&list, 2, 2, &[4, 2]), Located::At(1));
    assert_eq!(library::locate(&list, 2, 3, &[1, 6]), Located::At(2));
    assert_eq!(library::locate(&list, 2, 3, &[2, 2]), Located::Nowhere);
    assert_eq!(library::locate(&list, 2, 0, &[4, 2]), Located::Nowhere);
    assert_eq!(library::locate(&[], 1, 0, &[0]), Located::Nowhere);
}

#[test]
fn refusals_in_rising_number() {
    let list = [3, 2, 1, 5, 3, 2, 0];
    assert_eq!(library::locate(&list, 0, usize::MAX, &[]), Located::Refused(2));
    assert_eq!(library::locate(&list, 17, 4, &[]), Located::Refused(2));
    assert_eq!(library::locate(&list, 2, 4, &[4]), Located::Refused(5));
    assert_eq!(library::locate(&list, 2, 4, &[4, 2, 0]), Located::Refused(5));
    assert_eq!(library::locate(&list, 2, 4, &[4, 2]), Located::Refused(6));
    assert_eq!(library::locate(&list, 2, usize::MAX, &[4, 2]), Located::Refused(6));
}

type Call = fn(&[u32], usize, usize, &[u32]) -> Located;

#[test]
fn drawn_lists() {
    let mut d = Draw::new(7);
    let mut answers = BTreeMap::<(u8, bool), usize>::new();
    for i in 0..100_000 {
        let (most, call) = if i % 2 == 0 { (16, library::locate as Call) } else { (32, library::engine_locate as Call) };
        let q = if d.one_in(10) { d.of(&[0, 1, 16, 17, 18, 31, 32, 33]) } else { d.between(1, 5) };
        let room = d.of(&[0, 1, 2, 6, 30]);
        let largest = d.of(&[1, 2, 4, u32::MAX as usize]);
        let list: Vec<u32> = (0..room * q + q / 2).map(|_| d.between(0, largest) as u32).collect();
        let length = if d.one_in(10) { d.between(0, 18) } else { q };
        let tuple: Vec<u32> = (0..length).map(|_| d.between(0, largest) as u32).collect();
        let found = if d.one_in(10) { d.between(0, room + 2) } else { room };
        let wanted = model::locate(most, &list, q, found, &tuple);
        assert_eq!(call(&list, q, found, &tuple), wanted, "{found} of {list:?} for {q} and {tuple:?}");
        let kind = match wanted {
            Located::At(n) => (0, n > 1),
            Located::Nowhere => (1, false),
            Located::Refused(number) => (number, false),
        };
        *answers.entry(kind).or_default() += 1;
    }
    for kind in [(0, true), (0, false), (1, false), (2, false), (5, false), (6, false)] {
        assert!(answers.get(&kind).is_some_and(|&n| n >= 100), "{kind:?} was hardly met: {answers:?}");
    }
}
