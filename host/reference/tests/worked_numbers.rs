//! The table 'On either side of each line', rows p1 to p10.

mod common;

use common::{receiver, record};
use reference::version::{ReceiverCalls, Version};
use reference::{fast, memory};

/// Row, E, low 16 bits, n before the window check, answer of Offer. Where
/// E > 0 only E - 1 is marked; L is 2^64 - 1.
const ROWS: [(&str, u64, u16, i128, u8); 10] = [
    ("p1", 0, 0, 0, 0),
    ("p2", 0, 65_535, 65_535, 0),
    ("p3", 65_536, 65_535, 65_535, 10),
    ("p4", 65_536, 32_768, 32_768, 9),
    ("p5", 65_536, 32_767, 98_303, 0),
    ("p6", 40_000, 0, 65_536, 0),
    ("p7", u64::MAX, 0, 1 << 64, 8),
    ("p8", u64::MAX, 65_534, (1 << 64) - 2, 10),
    ("p9", 100, 36, 36, 0),
    ("p10", 100, 35, 35, 9),
];

#[test]
fn the_number_of_every_row() {
    for (row, next, low, number, _) in ROWS {
        assert_eq!(memory::number_of(next, low), number, "{row}");
        assert_eq!(fast::number_of(next, low), number.try_into().ok(), "{row}");
    }
}

fn the_answer_of_every_row<V: Version>() {
    for (row, next, low, number, answer) in ROWS {
        let state = receiver(0, next, u64::from(next > 0));
        let offered = V::Receiver::from_raw(state).offer(&record(low, 16), 0);
        assert_eq!(offered.answer, answer, "{row}");
        let handed = if answer == 0 { number } else { 0 };
        assert_eq!(i128::from(offered.number), handed, "{row}");
    }
}

for_both!(the_answer_of_every_row);
