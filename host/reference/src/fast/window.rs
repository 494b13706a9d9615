//! The receive window of one key.

use crate::layout;
use crate::raw::Marks;
use crate::refusal::Refusal;
use crate::setting::Setting;

/// E and the words of the window: bit i set means that E - 1 - i is marked.
#[derive(Clone, Copy, Debug, Default, PartialEq, Eq)]
pub(super) struct Window {
    pub(super) next: u64,
    pub(super) marks: Marks,
}

/// The number with these low 16 bits that is nearest to E, or none if it
/// would pass 64 bits (and so every limit).
#[inline]
#[must_use]
pub fn number_of(next: u64, low: u16) -> Option<u64> {
    // The low 16 bits of the difference, read as signed, are exactly the step
    // from E into E - 32768 ..= E + 32767.
    let step = low.wrapping_sub(next as u16) as i16;
    match next.checked_add_signed(i64::from(step)) {
        // Below zero, 65536 more lands on the low bits themselves.
        None if step < 0 => Some(u64::from(low)),
        number => number,
    }
}

/// The word and the bit in it where bit i of a window is. Every i is below
/// 256, so the remainder only shows that the word is there.
#[inline]
fn place(i: u64) -> (usize, u64) {
    ((i / 64) as usize % layout::Window::WORDS, i % 64)
}

impl Window {
    /// The State rule for one key.
    #[inline]
    pub(super) fn is_bad(&self, setting: &Setting) -> bool {
        let unmarked_top = self.next > 0 && self.marks[0] & 1 == 0;
        self.next > setting.limit || unmarked_top || self.has_bit_from(self.known(setting.width))
    }

    /// Whether E and every word are zero.
    #[inline]
    pub(super) fn is_zero(&self) -> bool {
        self.marks.iter().fold(self.next, |all, word| all | word) == 0
    }

    /// How many numbers below E the window knows.
    #[inline]
    fn known(&self, width: u16) -> u64 {
        self.next.min(u64::from(width))
    }

    /// Whether bit i or one above it is set.
    #[inline]
    fn has_bit_from(&self, i: u64) -> bool {
        let [a, b, c, d] = self.marks;
        let bit = i % 64;
        let found = match i / 64 {
            0 => a >> bit | b | c | d,
            1 => b >> bit | c | d,
            2 => c >> bit | d,
            3 => d >> bit,
            _ => 0,
        };
        found != 0
    }

    /// The number for the low 16 bits, or E where a record has none; or
    /// Spent, Old or Repeat.
    #[inline]
    pub(super) fn judge(&self, low: Option<u16>, setting: &Setting) -> Result<u64, Refusal> {
        let number = match low {
            Some(low) => number_of(self.next, low),
            None => Some(self.next),
        };
        let number = match number {
            Some(number) if number < setting.limit => number,
            _ => return Err(Refusal::Spent),
        };
        if number < self.next {
            let i = self.next - 1 - number;
            if i >= u64::from(setting.width) {
                return Err(Refusal::Old);
            }
            let (word, bit) = place(i);
            if self.marks[word] >> bit & 1 == 1 {
                return Err(Refusal::Repeat);
            }
        }
        Ok(number)
    }

    /// Marks a number that `judge` let through.
    #[inline]
    pub(super) fn mark(&mut self, number: u64, width: u16) {
        if number < self.next {
            let (word, bit) = place(self.next - 1 - number);
            self.marks[word] |= 1 << bit;
            return;
        }
        self.move_up(number - self.next + 1, width);
        self.marks[0] |= 1;
        self.next = number + 1;
    }

    /// Moves every bit up and leaves nothing at the width or above.
    #[inline]
    fn move_up(&mut self, up: u64, width: u16) {
        let [a, b, c, d] = self.marks;
        let [a, b, c, d] = match up / 64 {
            0 => [a, b, c, d],
            1 => [0, a, b, c],
            2 => [0, 0, a, b],
            3 => [0, 0, 0, a],
            _ => [0; 4],
        };
        let bits = up % 64;
        // In two steps, since with no bits to carry one would be by 64.
        let carry = |word: u64| word >> 1 >> (63 - bits);
        let moved = |word: u64, below: u64| word << bits | carry(below);
        let [a, b, c, d] = [a << bits, moved(b, a), moved(c, b), moved(d, c)];
        self.marks = match width {
            64 => [a, 0, 0, 0],
            128 => [a, b, 0, 0],
            192 => [a, b, c, 0],
            _ => [a, b, c, d],
        };
    }

    /// How many of the last min(width, E) numbers are unmarked. No bit is set
    /// beyond them, so the ones are all among them.
    #[inline]
    pub(super) fn gaps(&self, width: u16) -> u32 {
        let marked: u32 = self.marks.iter().map(|word| word.count_ones()).sum();
        self.known(width) as u32 - marked
    }
}
