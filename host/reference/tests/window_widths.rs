//! Windows of 64, 128, 192 and 256 numbers: late records, moves across the
//! words, the State rule and the gap count.

mod common;

use common::{key, receiver, receiver_with_old, record, setting};
use reference::version::{ReceiverCalls, SenderCalls, Version};
use reference::{Marks, RawKey, RawReceiver, Setting};

const WIDTHS: [u16; 4] = [64, 128, 192, 256];
/// An E far above every width.
const FAR: u64 = 1_000;

/// The window whose bits are those that pass the test.
fn window(set: impl Fn(u64) -> bool) -> Marks {
    let word = |first: u64| (0..64).fold(0, |word, i| word | u64::from(set(first + i)) << i);
    [0, 64, 128, 192].map(word)
}

/// Whether bit i of a window is set.
fn bit(marks: &Marks, i: u64) -> bool {
    marks[i as usize / 64] >> (i % 64) & 1 == 1
}

/// The worked setting with a window of this width.
fn with_width(width: u16) -> Setting {
    Setting {
        width,
        ..setting(0)
    }
}

fn wide_key(next: u64, marks: Marks) -> RawKey {
    RawKey {
        marks,
        ..key(next, 0)
    }
}

/// A receiver's state with a window of this width.
fn wide(width: u16, next: u64, marks: Marks) -> RawReceiver {
    RawReceiver {
        setting: with_width(width),
        current: wide_key(next, marks),
        ..receiver(0, 0, 0)
    }
}

/// The same as an old key, under a new current one.
fn wide_old(width: u16, next: u64, marks: Marks) -> RawReceiver {
    RawReceiver {
        setting: with_width(width),
        ..receiver_with_old(0, key(0, 0), wide_key(next, marks))
    }
}

/// Settles number n in a slot as the cipher's yes, and gives the answer.
fn take<R: ReceiverCalls>(receiver: &mut R, slot: u8, n: u64) -> u8 {
    let rec = record(n as u16, 16);
    receiver.settle(&rec, slot, 0, n, true, &[]).answer
}

/// The window after marking the number that lies `up` - 1 above E.
fn moved<V: Version>(width: u16, next: u64, marks: Marks, up: u64) -> Marks {
    let mut receiver = V::Receiver::from_raw(wide(width, next, marks));
    assert_eq!(take(&mut receiver, 0, next - 1 + up), 0);
    let current = receiver.raw().current;
    assert_eq!(current.next, next + up);
    current.marks
}

fn late_by_150<V: Version>() {
    for (width, answers) in [(64, [9, 9]), (128, [9, 9]), (192, [0, 10]), (256, [0, 10])] {
        let states = [wide, wide_old].map(|state| state(width, FAR, [1, 0, 0, 0]));
        for (slot, state) in (0..).zip(states) {
            let mut receiver = V::Receiver::from_raw(state);
            let taken = [(); 2].map(|()| take(&mut receiver, slot, FAR - 150));
            assert_eq!(taken, answers);
        }
    }
}

fn late_by_the_width_and_one_more<V: Version>() {
    for width in WIDTHS {
        let mut receiver = V::Receiver::from_raw(wide(width, FAR, [1, 0, 0, 0]));
        let last = FAR - u64::from(width);
        assert_eq!(take(&mut receiver, 0, last - 1), 9);
        assert_eq!(take(&mut receiver, 0, last), 0);
        assert_eq!(take(&mut receiver, 0, last), 10);
        assert_eq!(take(&mut receiver, 0, last - 1), 9);
        let marks = window(|i| i == 0 || i == u64::from(width) - 1);
        assert_eq!(receiver.raw().current, wide_key(FAR, marks));
    }
}

/// Number 0 alone is marked, and then a number above it.
fn moves_of_one_mark<V: Version>() {
    let top = 1 << 63;
    for (up, after) in [
        (1, [3, 0, 0, 0]),
        (63, [1 | top, 0, 0, 0]),
        (64, [1, 1, 0, 0]),
        (65, [1, 2, 0, 0]),
        (127, [1, top, 0, 0]),
        (128, [1, 0, 1, 0]),
        (129, [1, 0, 2, 0]),
        (191, [1, 0, top, 0]),
        (192, [1, 0, 0, 1]),
        (193, [1, 0, 0, 2]),
        (255, [1, 0, 0, top]),
        (256, [1, 0, 0, 0]),
        (257, [1, 0, 0, 0]),
        (320, [1, 0, 0, 0]),
        (32_767, [1, 0, 0, 0]),
    ] {
        for width in WIDTHS {
            let after = match up < u64::from(width) {
                true => after,
                false => [1, 0, 0, 0],
            };
            assert_eq!(
                moved::<V>(width, 1, [1, 0, 0, 0], up),
                after,
                "{width} {up}"
            );
        }
    }
}

/// Every bit of a full and of a mixed window is moved, bit by bit.
fn moves_of_many_marks<V: Version>() {
    let mixed = 0x8000_F00F_0FF0_0005;
    for width in WIDTHS.map(u64::from) {
        for pattern in [[u64::MAX; 4], [mixed, !mixed | 1, mixed, !mixed]] {
            let before = window(|i| i < width && bit(&pattern, i));
            for up in [
                1, 2, 63, 64, 65, 127, 128, 129, 191, 192, 193, 255, 256, 257, 640,
            ] {
                let kept = |i| i >= up && i < width && bit(&before, i - up);
                let after = window(|i| i == 0 || kept(i));
                assert_eq!(
                    moved::<V>(width as u16, FAR, before, up),
                    after,
                    "{width} {up}"
                );
            }
        }
    }
}

/// From the newest to the oldest each number is taken once.
fn a_window_fills_up<V: Version>() {
    for width in WIDTHS {
        let mut receiver = V::Receiver::from_raw(wide(width, FAR, [1, 0, 0, 0]));
        for i in 1..width {
            assert_eq!(receiver.gaps(0), (0, u32::from(width - i)));
            let n = FAR - 1 - u64::from(i);
            assert_eq!(take(&mut receiver, 0, n), 0);
            assert_eq!(take(&mut receiver, 0, n), 10);
        }
        assert_eq!(receiver.gaps(0), (0, 0));
        let full = window(|i| i < u64::from(width));
        assert_eq!(receiver.raw(), wide(width, FAR, full));
    }
}

fn gap_counts<V: Version>() {
    for width in WIDTHS {
        for next in [
            1,
            63,
            64,
            65,
            100,
            128,
            129,
            192,
            193,
            255,
            256,
            257,
            u64::MAX,
        ] {
            let known = next.min(u64::from(width));
            for (marks, gaps) in [([1, 0, 0, 0], known - 1), (window(|i| i < known), 0)] {
                let receiver = V::Receiver::from_raw(wide(width, next, marks));
                assert_eq!(receiver.gaps(0), (0, gaps as u32), "{width} {next}");
            }
        }
    }
}

/// Every bit for every width: State at min(width, E) and above, in both keys.
fn bits_beyond_are_state<V: Version>() {
    for width in WIDTHS {
        for next in [
            1, 2, 63, 64, 65, 127, 128, 191, 192, 193, 255, 256, 257, FAR,
        ] {
            for i in 0..256 {
                let marks = window(|j| j == 0 || j == i);
                let answer = u8::from(i >= next.min(u64::from(width)));
                let current = V::Receiver::from_raw(wide(width, next, marks));
                assert_eq!(current.gaps(0).0, answer, "{width} {next} {i}");
                let old = V::Receiver::from_raw(wide_old(width, next, marks));
                assert_eq!(old.gaps(0).0, answer, "{width} {next} {i}");
            }
        }
    }
}

fn a_bit_at_e_0_or_of_no_old_key_is_state<V: Version>() {
    for i in 0..256 {
        let marks = window(|j| j == i);
        for width in WIDTHS {
            let empty = V::Receiver::from_raw(wide(width, 0, marks));
            assert_eq!(empty.gaps(0).0, 1);
            let old = RawKey {
                marks,
                ..RawKey::default()
            };
            let state = wide(width, 0, [0; 4]);
            let stray = V::Receiver::from_raw(RawReceiver { old, ..state });
            assert_eq!(stray.gaps(0).0, 1);
        }
    }
}

/// Bit 0 must be set where E > 0, whatever the other words hold.
fn an_unmarked_highest_is_state<V: Version>() {
    let marks = window(|i| i > 0);
    let receiver = V::Receiver::from_raw(wide(256, FAR, marks));
    assert_eq!(receiver.gaps(0).0, 1);
}

fn no_other_width_is_taken<V: Version>() {
    for width in (0..=u16::MAX).filter(|width| !WIDTHS.contains(width)) {
        assert_eq!(V::Sender::open(with_width(width), [0; 12]).0, 2);
        assert_eq!(V::Receiver::open(with_width(width), [0; 12]).0, 2);
    }
    for width in WIDTHS {
        let (answer, receiver) = V::Receiver::open(with_width(width), [0; 12]);
        assert_eq!((answer, receiver.raw().setting.width), (0, width));
    }
}

/// The old key keeps its whole window over a key change, and Drop clears it.
fn a_key_change_keeps_every_word<V: Version>() {
    let full = [u64::MAX; 4];
    let mut receiver = V::Receiver::from_raw(wide(256, FAR, full));
    assert_eq!(receiver.change_key([7; 12]), 0);
    let raw = receiver.raw();
    assert_eq!((raw.old, raw.current.marks), (wide_key(FAR, full), [0; 4]));
    assert_eq!(take(&mut receiver, 1, FAR - 256), 10);
    assert_eq!(receiver.drop_old(), 0);
    assert_eq!(receiver.raw().old, RawKey::default());
}

for_both!(
    late_by_150,
    late_by_the_width_and_one_more,
    moves_of_one_mark,
    moves_of_many_marks,
    a_window_fills_up,
    gap_counts,
    bits_beyond_are_state,
    a_bit_at_e_0_or_of_no_old_key_is_state,
    an_unmarked_highest_is_state,
    no_other_width_is_taken,
    a_key_change_keeps_every_word,
);
