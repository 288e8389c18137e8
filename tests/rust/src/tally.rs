//! How often each answer was given, a refusal by its number.

use crate::Answer;
use std::collections::BTreeMap;

#[derive(Default)]
pub struct Tally(BTreeMap<Answer, usize>);

impl Tally {
    pub fn count(&mut self, answer: Answer) {
        let kind = match answer {
            Answer::Refused { number, .. } => Answer::refused(number),
            other => other,
        };
        *self.0.entry(kind).or_default() += 1;
    }

    /// Shows that the cases drawn were not all of one kind.
    pub fn has_met(&self, answers: &[Answer], refusals: &[u8]) {
        println!("{:?}", self.0);
        for answer in answers.iter().copied().chain(refusals.iter().map(|&n| Answer::refused(n))) {
            assert!(self.0.get(&answer).is_some_and(|&n| n >= 20), "{answer:?} was hardly met");
        }
    }
}
