//! How often each call gave each answer.

use crate::kind::Kind;
use crate::refusal::Refusal;

/// Counts by kind of call and answer number.
#[derive(Clone, Debug, Default, PartialEq, Eq)]
pub struct Tally {
    counts: [[u64; 22]; Kind::ALL.len()],
    strange: u64,
}

impl Tally {
    /// Counts one answer.
    pub fn count(&mut self, kind: Kind, answer: u8) {
        match self.counts[kind as usize].get_mut(usize::from(answer)) {
            Some(count) => *count += 1,
            None => self.strange += 1,
        }
    }

    /// How often this call gave this answer.
    #[must_use]
    pub fn seen(&self, kind: Kind, answer: u8) -> u64 {
        let row = &self.counts[kind as usize];
        row.get(usize::from(answer)).copied().unwrap_or(0)
    }

    /// How often any call gave this refusal.
    #[must_use]
    pub fn refused(&self, refusal: Refusal) -> u64 {
        Kind::ALL
            .iter()
            .map(|&kind| self.seen(kind, refusal.number()))
            .sum()
    }

    /// Answers above 21, which page 01 does not know.
    #[must_use]
    pub fn strange(&self) -> u64 {
        self.strange
    }

    /// All answers of one kind of call.
    #[must_use]
    pub fn of(&self, kind: Kind) -> u64 {
        self.counts[kind as usize].iter().sum()
    }

    /// Adds another tally to this one.
    pub fn add(&mut self, other: &Tally) {
        let rows = self.counts.iter_mut().zip(&other.counts);
        for (mine, theirs) in rows.flat_map(|(a, b)| a.iter_mut().zip(b)) {
            *mine += theirs;
        }
        self.strange += other.strange;
    }
}
