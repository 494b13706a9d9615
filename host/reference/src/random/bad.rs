//! Any states, most of the bad ones just over one line of the State rule.

use super::rng::Rng;
use super::states::{good_receiver, good_sender, good_setting};
use crate::layout::Window;
use crate::raw::{Marks, RawKey, RawReceiver, RawSender};
use crate::setting::Setting;

/// A setting, bad about once in four times.
pub fn any_setting(rng: &mut Rng) -> Setting {
    let mut setting = good_setting(rng);
    if rng.one_in(4) {
        break_setting(rng, &mut setting);
    }
    setting
}

/// A sender's state, bad about once in four times.
pub fn any_sender(rng: &mut Rng) -> RawSender {
    let mut state = good_sender(rng);
    match rng.below(12) {
        0 => break_setting(rng, &mut state.setting),
        1 => state.next = above(rng, state.setting.limit),
        2 => state.next = rng.word(),
        _ => {}
    }
    state
}

/// A receiver's state, bad about once in four times.
pub fn any_receiver(rng: &mut Rng) -> RawReceiver {
    let mut state = good_receiver(rng);
    if rng.one_in(4) {
        break_receiver(rng, &mut state);
    }
    state
}

fn break_setting(rng: &mut Rng, setting: &mut Setting) {
    match rng.below(7) {
        0 => setting.mode = above_one(rng),
        1 => setting.mode = rng.word() as u8,
        2 => setting.layout = above_one(rng),
        3 => setting.mac = rng.pick(&[0, 1, 4, 7, 9, 10, 11, 13, 15, 17, 24, 32, 255]),
        4 => setting.profile = above_one(rng),
        5 => {
            setting.width = rng.pick(&[0, 1, 32, 63, 65, 96, 127, 255, 257, 320, 16_384, u16::MAX])
        }
        _ => setting.limit = 0,
    }
}

/// A value that no choice between two has.
fn above_one(rng: &mut Rng) -> u8 {
    rng.pick(&[2, 3, 128, 255])
}

fn break_receiver(rng: &mut Rng, state: &mut RawReceiver) {
    let setting = state.setting;
    match rng.below(8) {
        0 => break_setting(rng, &mut state.setting),
        1 | 2 => break_key(rng, &mut state.current, &setting),
        3 | 4 => break_key(rng, &mut state.old, &setting),
        5 => leave_stray_old(rng, state),
        6 => (state.held, state.count) = (true, 0),
        _ => *state = scramble(rng),
    }
}

/// One clause of the State rule for a key, or any fields at all.
fn break_key(rng: &mut Rng, key: &mut RawKey, setting: &Setting) {
    let width = u64::from(setting.width);
    match rng.below(5) {
        0 => key.next = above(rng, setting.limit),
        1 => {
            key.next = rng.below(width);
            key.marks = [1, 0, 0, 0];
            set_bit_from(rng, key.next, &mut key.marks);
        }
        2 => set_bit_from(rng, width, &mut key.marks),
        3 => key.marks[0] &= !1,
        _ => {
            key.next = rng.word();
            key.marks = words(rng);
        }
    }
}

/// One bit of a window at this one or above, often the first of them; none
/// where the window ends before.
fn set_bit_from(rng: &mut Rng, first: u64, marks: &mut Marks) {
    let above = u64::from(Window::BITS).saturating_sub(first);
    if above > 0 {
        let bit = first + if rng.one_in(2) { 0 } else { rng.below(above) };
        marks[(bit / 64) as usize] |= 1 << (bit % 64);
    }
}

fn words(rng: &mut Rng) -> Marks {
    std::array::from_fn(|_| rng.word())
}

/// No old key held, but one of its fields not zero.
fn leave_stray_old(rng: &mut Rng, state: &mut RawReceiver) {
    state.held = false;
    let stray = rng.below(4);
    if stray == 3 {
        return; // whatever a held key left behind
    }
    state.old = RawKey::default();
    match stray {
        0 => state.old.iv[rng.below(12) as usize] = 1 + rng.below(255) as u8,
        1 => state.old.next = 1,
        _ => state.old.marks[rng.below(4) as usize] = 1 << rng.below(64),
    }
}

fn scramble(rng: &mut Rng) -> RawReceiver {
    let mut key = || RawKey {
        iv: rng.iv(),
        next: rng.word(),
        marks: words(rng),
    };
    let (current, old) = (key(), key());
    RawReceiver {
        setting: Setting {
            mode: rng.word() as u8,
            layout: rng.word() as u8,
            mac: rng.word() as u8,
            profile: rng.word() as u8,
            width: rng.word() as u16,
            session: rng.word() as u32,
            limit: rng.word(),
        },
        count: rng.word() as u32,
        current,
        held: rng.one_in(2),
        old,
    }
}

/// A little above the limit, or the limit itself where nothing is above it.
fn above(rng: &mut Rng, limit: u64) -> u64 {
    limit.saturating_add(1 + rng.below(3))
}
