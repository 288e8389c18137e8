//! Up to eight plain runs in turns.
#![forbid(unsafe_code)]

use crate::answer::{numbers, Answer, Error, Progress};
use crate::calls::{self, Lent, Part, Record, Round, Share, Turn};
use crate::list::Rows;
use crate::run::plain_stack;
use crate::system::System;

/// Up to eight plain runs in fair turns: each goes on as it would alone, and none waits longer than the others' turns take. Lists grow as they fill.
///
/// ```
/// use dezgula::{Progress, Several, System};
/// let mut several = Several::new(1000)?;
/// several.add(&System::new([[2, -3]])?)?;
/// several.add(&System::new([[-1, 1, 2, -3], [-1, 3, -2, -1]])?)?;
/// while several.serve(2)? > 0 {
///     println!("{} steps", several.runs().map(|run| run.steps).sum::<u64>());
/// }
/// for run in several.runs() {
///     assert_eq!(run.state?, Progress::Complete);
///     println!("{:?}: {:?}", run.system, run.list.collect::<Vec<_>>());
/// }
/// # Ok::<(), dezgula::Error>(())
/// ```
#[derive(Clone, Debug)]
pub struct Several {
    systems: Vec<System>,
    shares: Vec<Share>,
    coefs: Vec<i32>,
    stack: Vec<u32>,
    /// The runs' parts, one behind the other.
    list: Vec<u32>,
    round: Round,
    quantum: u64,
    most_rows: usize,
}

/// One of the runs in turns.
#[derive(Clone, Debug)]
pub struct InTurn<'a> {
    /// Its system.
    pub system: &'a System,
    /// Whether it has come to its end, or why it does not go on.
    pub state: Result<Progress, Error>,
    /// The steps that it has taken.
    pub steps: u64,
    /// What it has listed so far, in the order found.
    pub list: Rows<'a>,
}

/// A part behind the end of a table.
fn part(behind: usize, size: usize) -> Part {
    Part { start: behind, size }
}

impl Several {
    /// No runs yet, for turns of `quantum` steps. Turns of no steps are refused with 27.
    pub fn new(quantum: u64) -> Result<Several, Error> {
        if quantum == 0 {
            return Err(Error::new(numbers::SCHEDULE, 0));
        }
        let none =
            Several { systems: vec![], shares: vec![], coefs: vec![], stack: vec![], list: vec![], round: Round::default(), quantum, most_rows: usize::MAX };
        Ok(none)
    }

    /// Starts a run of a system, of at most 8 equations and 16 unknowns, and gives its place, from 0. A ninth run is refused with 27, and a system as
    /// [`System::start`] of a [`crate::Plain`] run does; the others stay as they are.
    pub fn add(&mut self, system: &System) -> Result<usize, Error> {
        let place = self.shares.len();
        if place == self.round.runs.len() {
            return Err(Error::new(numbers::SCHEDULE, 0));
        }
        let (m, mut own, mut record) = (system.map(), vec![0; plain_stack(system.unknowns())], Record::default());
        calls::start(m, &mut Lent { stack: &mut own, list: &mut [], second: &mut [], record: &mut record }).only(numbers::STARTED)?;
        self.shares.push(Share {
            p: m.p,
            q: m.q,
            coefs: part(self.coefs.len(), m.coefs.len()),
            stack: part(self.stack.len(), own.len()),
            list: part(self.list.len(), 0),
        });
        self.coefs.extend_from_slice(m.coefs);
        self.stack.extend_from_slice(&own);
        self.round.runs[place] = Turn { record, answer: numbers::STARTED.into() };
        self.systems.push(system.clone());
        Ok(place)
    }

    /// Hands out `turns` turns round the runs that are not at their end, rising from the one after the run served last, and says how many can go on after that.
    /// A run that is refused takes its turns without a step.
    pub fn serve(&mut self, turns: u64) -> Result<usize, Error> {
        let mut left = turns;
        self.grow_full();
        while left > 0 && self.able() > 0 {
            // one turn each, so that a list that is full grows before the run's next one
            let now = left.min(self.turns().filter(|turn| turn.record.height > 0).count() as u64);
            calls::dispatch(&self.shares, &self.coefs, &mut self.stack, &mut self.list, &mut self.round, self.quantum, now).only(numbers::SERVED)?;
            left -= now;
            self.grow_full();
        }
        Ok(self.able())
    }

    /// Hands out turns until no run can go on: each is at its end or refused.
    pub fn complete(&mut self) -> Result<&mut Several, Error> {
        while self.serve(u64::MAX)? > 0 {}
        Ok(self)
    }

    /// The most rows that a list may have; where one more is needed its run is refused with 11, and goes on once more are allowed.
    pub fn limit(&mut self, rows: usize) -> &mut Several {
        self.most_rows = rows;
        self
    }

    fn turns(&self) -> impl Iterator<Item = &Turn> {
        self.round.runs.iter().take(self.shares.len())
    }

    /// How many runs can go on.
    fn able(&self) -> usize {
        self.turns().filter(|turn| [numbers::STARTED, numbers::PAUSED].contains(&Answer(turn.answer).number())).count()
    }

    /// A run whose list was made longer is as one that is paused.
    fn grow_full(&mut self) {
        for i in 0..self.shares.len() {
            if Answer(self.round.runs[i].answer).number() == numbers::LIST_FULL && self.grow(i) {
                self.round.runs[i].answer = numbers::PAUSED.into();
            }
        }
    }

    /// Makes a run's part of the list twice as long; the parts behind it move. Not where it has all rows that it may have, or there is no memory.
    fn grow(&mut self, i: usize) -> bool {
        let (q, own, behind) = (self.shares[i].q, self.shares[i].list, self.list.len());
        let rows = own.size / q;
        let length = rows.max(16).min(self.most_rows.saturating_sub(rows)).saturating_mul(q);
        if length == 0 || self.list.try_reserve_exact(length).is_err() {
            return false;
        }
        self.list.resize(behind + length, 0);
        let end = own.start + own.size;
        self.list.copy_within(end..behind, end + length);
        self.shares[i].list.size += length;
        self.shares[i + 1..].iter_mut().for_each(|share| share.list.start += length);
        true
    }

    /// How many runs there are.
    pub fn len(&self) -> usize {
        self.shares.len()
    }

    /// Whether there are none.
    pub fn is_empty(&self) -> bool {
        self.shares.is_empty()
    }

    /// The run at a place, from 0.
    pub fn run(&self, place: usize) -> Option<InTurn<'_>> {
        let (system, share, turn) = (self.systems.get(place)?, self.shares.get(place)?, self.round.runs.get(place)?);
        let answer = Answer(turn.answer);
        let state = if answer.number() == numbers::STARTED { Ok(Progress::Paused) } else { answer.progress() };
        let rows = &self.list[share.list.start..][..turn.record.found as usize * share.q];
        Some(InTurn { system, state, steps: turn.record.steps, list: Rows::of(share.q, rows) })
    }

    /// The runs, in the order in which they were added.
    pub fn runs(&self) -> impl Iterator<Item = InTurn<'_>> {
        (0..self.len()).filter_map(|place| self.run(place))
    }
}
