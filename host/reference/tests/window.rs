//! Marking at the ends of the window, the gap count, and the two keys.

mod common;

use common::{key, low_word, receiver, receiver_with_old, record};
use reference::version::{ReceiverCalls, Version};
use reference::{RawKey, RawReceiver};

/// Settles number n as the cipher's yes, and gives the answer.
fn take<R: ReceiverCalls>(receiver: &mut R, slot: u8, count: u32, n: u64) -> u8 {
    let rec = record(n as u16, 16);
    receiver.settle(&rec, slot, count, n, true, &[]).answer
}

/// E and the lowest word, the only one at width 64, after marking n.
fn after<V: Version>(next: u64, marks: u64, n: u64) -> (u64, u64) {
    let mut receiver = V::Receiver::from_raw(receiver(0, next, marks));
    assert_eq!(take(&mut receiver, 0, 0, n), 0);
    let RawKey { next, marks, .. } = receiver.raw().current;
    assert_eq!(marks, low_word(marks[0]));
    (next, marks[0])
}

fn moving_up<V: Version>() {
    let full = u64::MAX;
    assert_eq!(after::<V>(0, 0, 0), (1, 1));
    assert_eq!(after::<V>(1, 1, 1), (2, 3));
    assert_eq!(after::<V>(1, 1, 62), (63, 1 | 1 << 62));
    assert_eq!(after::<V>(1, 1, 63), (64, 1 | 1 << 63));
    assert_eq!(after::<V>(1, 1, 64), (65, 1));
    assert_eq!(after::<V>(1, 1, 65), (66, 1));
    assert_eq!(after::<V>(1, 1, 128), (129, 1));
    assert_eq!(after::<V>(100, full, 162), (163, 1 | 1 << 63));
    assert_eq!(after::<V>(100, full, 163), (164, 1));
    assert_eq!(after::<V>(100, full, 164), (165, 1));
    assert_eq!(after::<V>(0, 0, 65_535), (65_536, 1));
}

fn filling_in<V: Version>() {
    assert_eq!(after::<V>(100, 1, 98), (100, 3));
    assert_eq!(after::<V>(100, 1, 36), (100, 1 | 1 << 63));
    assert_eq!(after::<V>(64, 1, 0), (64, 1 | 1 << 63));
    assert_eq!(after::<V>(2, 1, 0), (2, 3));
}

fn the_last_usable_number<V: Version>() {
    let last = u64::MAX - 1;
    assert_eq!(after::<V>(last, 1, last), (u64::MAX, 3));
    assert_eq!(after::<V>(u64::MAX, 1, last - 63), (u64::MAX, 1 | 1 << 63));
}

fn gap_counts<V: Version>() {
    for (next, marks, gaps) in [
        (0, 0, 0),
        (1, 1, 0),
        (2, 1, 1),
        (63, 1, 62),
        (64, 1, 63),
        (65, 1, 63),
        (64, u64::MAX, 0),
        (u64::MAX, u64::MAX, 0),
        (u64::MAX, 1 | 1 << 63, 62),
    ] {
        let receiver = V::Receiver::from_raw(receiver(0, next, marks));
        assert_eq!(receiver.gaps(0), (0, gaps));
    }
}

fn keys_are_apart<V: Version>() {
    let mut receiver = V::Receiver::from_raw(receiver(0, 0, 0));
    assert_eq!(take(&mut receiver, 0, 0, 3), 0);
    assert_eq!(receiver.change_key([7; 12]), 0);
    let current = RawKey {
        iv: [7; 12],
        ..RawKey::default()
    };
    assert_eq!(receiver.raw(), receiver_with_old(0, current, key(4, 1)));
    assert_eq!(receiver.offer(&record(3, 16), 0).number, 3);
    assert_eq!(receiver.offer(&record(3, 16), 1).answer, 10);
    assert_eq!(receiver.offer(&record(2, 16), 1).count, 0);
    assert_eq!(take(&mut receiver, 0, 1, 3), 0);
    assert_eq!(take(&mut receiver, 1, 0, 2), 0);
    assert_eq!((receiver.gaps(0), receiver.gaps(1)), ((0, 3), (0, 2)));
    assert_eq!(receiver.change_key([8; 12]), 18);
    assert_eq!(receiver.drop_old(), 0);
    let left = receiver.raw();
    assert_eq!(
        (left.count, left.held, left.old),
        (1, false, RawKey::default())
    );
    assert_eq!(left.current.next, 4);
    assert_eq!(receiver.change_key([8; 12]), 0);
    assert_eq!(receiver.raw().count, 2);
}

fn a_no_marks_nothing<V: Version>() {
    let state = receiver(0, 0, 0);
    let mut receiver = V::Receiver::from_raw(state);
    let rec = record(0, 16);
    assert_eq!(receiver.settle(&rec, 0, 0, 0, false, &[]).answer, 13);
    assert_eq!(receiver.raw(), state);
    assert_eq!(take(&mut receiver, 0, 0, 0), 0, "the true one still passes");
    assert_eq!(take(&mut receiver, 0, 0, 0), 10, "and never again");
}

fn a_moved_window_is_stale<V: Version>() {
    let mut receiver = V::Receiver::from_raw(receiver(0, 0, 0));
    let rec = record(40_000, 16);
    let offered = receiver.offer(&rec, 0);
    assert_eq!(offered.number, 40_000);
    // Two steps up, after which the same low bits are of the next turn.
    assert_eq!(take(&mut receiver, 0, 0, 32_767), 0);
    assert_eq!(take(&mut receiver, 0, 0, 65_535), 0);
    assert_eq!(take(&mut receiver, 0, 0, 98_302), 0);
    assert_eq!(receiver.offer(&rec, 0).number, 40_000 + 65_536);
    assert_eq!(receiver.settle(&rec, 0, 0, 40_000, true, &[]).answer, 11);
}

fn the_other_slot_is_stale<V: Version>() {
    let state = RawReceiver {
        count: 9,
        ..receiver_with_old(0, key(0, 0), key(0, 0))
    };
    let mut receiver = V::Receiver::from_raw(state);
    let rec = record(0, 16);
    assert_eq!(receiver.offer(&rec, 0).count, 9);
    assert_eq!(receiver.offer(&rec, 1).count, 8);
    assert_eq!(receiver.settle(&rec, 1, 9, 0, true, &[]).answer, 11);
    assert_eq!(receiver.settle(&rec, 0, 8, 0, true, &[]).answer, 11);
    assert_eq!(receiver.settle(&rec, 1, 8, 0, true, &[]).answer, 0);
}

for_both!(
    moving_up,
    filling_in,
    the_last_usable_number,
    gap_counts,
    keys_are_apart,
    a_no_marks_nothing,
    a_moved_window_is_stale,
    the_other_slot_is_stale,
);
