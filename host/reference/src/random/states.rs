//! Good states: those that calls may return.

use super::numbers::{edge, limit, small_step};
use super::rng::Rng;
use crate::layout::{Record, Window};
use crate::raw::{Marks, RawKey, RawReceiver, RawSender};
use crate::setting::Setting;

/// A setting that Open takes.
pub fn good_setting(rng: &mut Rng) -> Setting {
    let session = match rng.below(3) {
        0 => 0x1122_3344,
        1 => rng.pick(&[0, 1, u32::MAX]),
        _ => rng.word() as u32,
    };
    Setting {
        mode: rng.below(2) as u8,
        layout: rng.below(2) as u8,
        mac: rng.pick(&Record::MACS),
        profile: rng.below(2) as u8,
        width: rng.pick(&Window::WIDTHS),
        session,
        limit: limit(rng),
    }
}

/// A sender's state with its next number close to a line or to L.
pub fn good_sender(rng: &mut Rng) -> RawSender {
    let setting = good_setting(rng);
    RawSender {
        setting,
        count: count(rng),
        next: up_to(rng, setting.limit),
        iv: rng.iv(),
    }
}

/// A receiver's state, with or without an old key.
pub fn good_receiver(rng: &mut Rng) -> RawReceiver {
    let setting = good_setting(rng);
    let held = rng.one_in(2);
    let old = if held {
        good_key(rng, &setting)
    } else {
        RawKey::default()
    };
    RawReceiver {
        setting,
        count: count(rng).max(u32::from(held)),
        current: good_key(rng, &setting),
        held,
        old,
    }
}

/// A receive key whose E and marks fit each other and the setting.
pub fn good_key(rng: &mut Rng, setting: &Setting) -> RawKey {
    let next = up_to(rng, setting.limit);
    let known = next.min(u64::from(setting.width));
    RawKey {
        iv: rng.iv(),
        next,
        marks: marks(rng, known),
    }
}

/// A window that knows so many numbers: no bit beyond them, and bit 0 set if
/// there are any.
fn marks(rng: &mut Rng, known: u64) -> Marks {
    let style = rng.below(6);
    let mut marks: Marks = std::array::from_fn(|_| word(rng, style));
    marks[0] |= 1;
    for (word, first) in marks.iter_mut().zip((0..).step_by(64)) {
        let fits = known.saturating_sub(first);
        *word &= if fits < 64 { (1 << fits) - 1 } else { u64::MAX };
    }
    marks
}

/// One word; all of a window are of one style, so that full windows come too.
fn word(rng: &mut Rng, style: u64) -> u64 {
    match style {
        0 => 0,
        1 => u64::MAX,
        2 => 1 << 63,
        3 => rng.word() & rng.word(),
        4 => rng.word() | rng.word(),
        _ => rng.word(),
    }
}

/// A number from 0 to the limit itself.
fn up_to(rng: &mut Rng, limit: u64) -> u64 {
    if rng.one_in(3) {
        let below = small_step(rng).unsigned_abs();
        return limit.saturating_sub(below);
    }
    let number = edge(rng);
    if number <= limit {
        number
    } else {
        rng.below(limit)
    }
}

/// A key count, often at either end.
fn count(rng: &mut Rng) -> u32 {
    match rng.below(4) {
        0 => rng.pick(&[u32::MAX - 1, u32::MAX]),
        1 => rng.word() as u32,
        _ => rng.below(4) as u32,
    }
}
