//! Offer and settle of a whole set, from a new channel; the cipher always says yes.
use crate::records::{setting, Set, IV};
use compare::setting_out;
use husk::{raw, Setting, WIDTH};
use reference::fast;
use std::hint::black_box;

/// The proved version with a window of the usual width. Answers how many records were taken.
pub fn ours(set: &Set) -> usize {
    wide(set, WIDTH)
}

/// The proved version, by value, with a window of this width.
pub fn wide(set: &Set, width: u16) -> usize {
    let mut state = raw::Receiver::open(Setting { width, ..setting(set.mode) }, IV).next;
    let mut taken = 0;
    for rec in set.records() {
        let rec = black_box(rec);
        let offered = black_box(&state).offer(rec, 0);
        black_box(&offered);
        // As a host would: what was refused is not shown to the cipher, and not settled.
        if offered.answer != 0 {
            continue;
        }
        let plain = black_box(&set.plain[..]);
        let settled = black_box(&state).settle(rec, 0, offered.count, offered.number, 1, plain);
        black_box((settled.place, settled.length));
        taken += usize::from(settled.answer == 0);
        state = settled.next;
    }
    taken
}

/// The quick reference with a window of the usual width.
pub fn fast(set: &Set) -> usize {
    fast_wide(set, WIDTH)
}

/// The quick reference, with its state changed in place. The compiler may inline it.
pub fn fast_wide(set: &Set, width: u16) -> usize {
    let (_, mut state) = fast::Receiver::open(setting_out(Setting { width, ..setting(set.mode) }), IV);
    let mut taken = 0;
    for rec in set.records() {
        let rec = black_box(rec);
        let offered = black_box(&state).offer(rec, 0);
        black_box(&offered);
        if offered.answer != 0 {
            continue;
        }
        let plain = black_box(&set.plain[..]);
        let settled = black_box(&mut state).settle(rec, 0, offered.count, offered.number, true, plain);
        black_box((settled.place, settled.length));
        taken += usize::from(settled.answer == 0);
    }
    taken
}
