//! What is remembered of one receive key: the set of its marked numbers.

use std::collections::BTreeSet;
use std::ops::Range;

use super::number::number_of;
use super::rule::{bit, number_at};
use crate::layout::Window;
use crate::raw::{Marks, RawKey};
use crate::refusal::Refusal;
use crate::setting::{Iv, Setting};

/// One receive key's memory. Numbers are only ever added.
#[derive(Clone, Debug)]
pub(super) struct KeyMemory {
    pub(super) iv: Iv,
    pub(super) marked: BTreeSet<u64>,
}

impl KeyMemory {
    /// A new key: nothing is marked.
    pub(super) fn new(iv: Iv) -> Self {
        let marked = BTreeSet::new();
        KeyMemory { iv, marked }
    }

    /// The memory that a good raw key stands for. What lay below its window
    /// is not in the words, and cannot matter: all of it is Old.
    pub(super) fn from_raw(raw: &RawKey) -> Self {
        let marked = (0..Window::BITS)
            .filter(|&i| bit(&raw.marks, i))
            .filter_map(|i| u64::try_from(number_at(raw.next, i)).ok())
            .collect();
        KeyMemory { iv: raw.iv, marked }
    }

    /// E, and the window with bit i set where E - 1 - i is remembered.
    pub(super) fn raw(&self, width: u16) -> RawKey {
        let next = self.next();
        let mut marks = Marks::default();
        for number in self.marked.range(self.last_numbers(width)) {
            let i = next - 1 - number;
            marks[(i / 64) as usize] |= 1 << (i % 64);
        }
        RawKey {
            iv: self.iv,
            next,
            marks,
        }
    }

    /// E: 0 when nothing is marked, else the highest marked number plus 1.
    pub(super) fn next(&self) -> u64 {
        self.marked.last().map_or(0, |highest| highest + 1)
    }

    /// The last min(width, E) numbers below E.
    fn last_numbers(&self, width: u16) -> Range<u64> {
        let next = self.next();
        next - next.min(u64::from(width))..next
    }

    /// How many of the last min(width, E) numbers below E are not remembered.
    pub(super) fn gaps(&self, width: u16) -> u32 {
        self.last_numbers(width).fold(0, |gaps, number| {
            gaps + u32::from(!self.marked.contains(&number))
        })
    }

    /// The number behind the low 16 bits, or E where a record has none; or
    /// Spent, Old or Repeat.
    pub(super) fn judge(&self, low: Option<u16>, setting: &Setting) -> Result<u64, Refusal> {
        let next = self.next();
        let whole = low.map_or(i128::from(next), |low| number_of(next, low));
        Refusal::Spent.when(whole >= i128::from(setting.limit))?;
        Refusal::Old.when(i128::from(next) - whole > i128::from(setting.width))?;
        // Below L, so it fits; the error is for the type only.
        let number = u64::try_from(whole).map_err(|_| Refusal::Spent)?;
        Refusal::Repeat.when(self.marked.contains(&number))?;
        Ok(number)
    }

    /// Remembers the number for good.
    pub(super) fn mark(&mut self, number: u64) {
        self.marked.insert(number);
    }
}
