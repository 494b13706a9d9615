//! The State rule in words, one clause after another.

use crate::layout::{Record, Window};
use crate::raw::{Marks, RawKey, RawReceiver, RawSender};
use crate::setting::Setting;

/// A setting that Open refuses: mode, layout or profile above 1, a MAC length
/// that is none of the three, a width that is none of the four, or L = 0.
#[must_use]
pub fn setting_is_bad(setting: &Setting) -> bool {
    let unknown_mac = !Record::MACS.contains(&setting.mac);
    let unknown_width = !Window::WIDTHS.contains(&setting.width);
    setting.mode > 1
        || setting.layout > 1
        || unknown_mac
        || setting.profile > 1
        || unknown_width
        || setting.limit == 0
}

/// A sender's state that every call refuses.
#[must_use]
pub fn sender_is_bad(state: &RawSender) -> bool {
    let next_above_limit = state.next > state.setting.limit;
    setting_is_bad(&state.setting) || next_above_limit
}

/// A receiver's state that every call refuses.
#[must_use]
pub fn receiver_is_bad(state: &RawReceiver) -> bool {
    let setting = &state.setting;
    let stray_old_key = !state.held && !all_zero(&state.old);
    let old_key_before_any_change = state.held && state.count == 0;
    setting_is_bad(setting)
        || key_is_bad(&state.current, setting)
        || key_is_bad(&state.old, setting)
        || stray_old_key
        || old_key_before_any_change
}

fn key_is_bad(key: &RawKey, setting: &Setting) -> bool {
    let next_above_limit = key.next > setting.limit;
    let highest_not_marked = key.next > 0 && !bit(&key.marks, 0);
    next_above_limit || has_stray_mark(key, setting.width) || highest_not_marked
}

/// A window bit for a number below 0, or beyond the width.
fn has_stray_mark(key: &RawKey, width: u16) -> bool {
    let stray = |i| i >= width || number_at(key.next, i) < 0;
    (0..Window::BITS).any(|i| bit(&key.marks, i) && stray(i))
}

fn all_zero(key: &RawKey) -> bool {
    let no_iv = key.iv.iter().all(|&byte| byte == 0);
    let no_marks = key.marks.iter().all(|&word| word == 0);
    no_iv && key.next == 0 && no_marks
}

/// Whether bit i of a window is set.
pub(super) fn bit(marks: &Marks, i: u16) -> bool {
    marks[usize::from(i / 64)] >> (i % 64) & 1 == 1
}

/// The number that bit i of the window stands for: E - 1 - i.
pub(super) fn number_at(next: u64, i: u16) -> i128 {
    i128::from(next) - 1 - i128::from(i)
}
