//! One desk after the other: the calls, and a map solved desk by desk with them.

use crate::library::{self, told, whole};
use crate::words;
use crate::{Answer, State, System};
use dezgula::calls;

/// The kind of these runs, as their record tells it.
pub const DESKS: u64 = 4;

/// Tables for `generators` of q unknowns and `room` rows, with no zeros in them, so that a place written too many shows.
pub fn blank(q: usize, generators: usize, room: usize) -> State {
    State { stack: vec![0xa5a5_a5a5; generators * (q + 2) + 3], ..State::blank(q, room) }
}

const REFUSALS: [u8; 10] = [1, 2, 3, 4, 6, 7, 25, 11, 12, 14];

pub fn start(m: &System, generators: &[u32], s: &mut State) -> Answer {
    told(s.on(|lent| calls::start_desk(m.map(), whole(generators, m.q), lent), |w| words::start_desk(m.map(), generators, w)), &REFUSALS)
}

pub fn resume(m: &System, generators: &[u32], s: &mut State, budget: u64) -> Answer {
    let given = whole(generators, m.q);
    told(s.on(|lent| calls::resume_desk(m.map(), given, lent, budget), |w| words::resume_desk(m.map(), generators, w, budget)), &REFUSALS)
}

/// The equations of a map from one to before another.
pub fn group(m: &System, from: usize, to: usize) -> System {
    System { p: to - from, q: m.q, coefs: m.coefs[from * m.q..to * m.q].to_vec() }
}

/// The rows of a whole list, one behind the other.
pub fn plain(m: &System, room: usize) -> Vec<u32> {
    let mut s = State::blank(m.q, room);
    assert_eq!(library::start(m, &mut s), Answer::Started);
    assert_eq!(library::resume(m, &mut s, u64::MAX), Answer::Complete, "{m:?}");
    s.rows(m.q).concat()
}

/// The same desk by desk, where the places say which equations begin a further desk; none where 25 is given.
pub fn built(m: &System, places: &[usize], room: usize) -> Option<Vec<u32>> {
    let ends = places.iter().copied().chain([m.p]);
    let mut rows = plain(&group(m, 0, places.first().copied().unwrap_or(m.p)), room);
    for (from, to) in places.iter().copied().zip(ends.skip(1)) {
        let second = group(m, from, to);
        let mut s = blank(m.q, rows.len() / m.q, room);
        match start(&second, &rows, &mut s) {
            Answer::Started => assert_eq!(resume(&second, &rows, &mut s, u64::MAX), Answer::Complete, "{m:?}"),
            refused => {
                assert_eq!(refused, Answer::refused(25), "{m:?}");
                return None;
            }
        }
        rows = s.rows(m.q).concat();
    }
    Some(rows)
}
