//! Offer and settle of a whole set in a full table of sixteen rows; the cipher always says yes.
use crate::records::{row_setting, Set, IV};
use compare::setting_out;
use husk::{raw, ROWS};
use reference::{fast, RawRow, RawTable};
use std::hint::black_box;

/// A new table with every row open, to be copied for each pass.
pub fn full(mode: u8) -> raw::Table {
    let mut table = raw::Table::default();
    for row in 0..ROWS {
        let opened = table.open(row_setting(mode, row), IV, IV);
        assert_eq!((opened.answer, usize::from(opened.row)), (0, row), "row {row} is opened");
    }
    table
}

/// The quick reference's table, the same.
pub fn full_fast(mode: u8) -> fast::Table {
    let mut rows = RawTable::default();
    for (place, row) in rows.iter_mut().enumerate() {
        let setting = setting_out(row_setting(mode, place));
        let ((_, receiver), (_, sender)) = (fast::Receiver::open(setting, IV), fast::Sender::open(setting, IV));
        *row = RawRow { receiver: receiver.raw(), sender: sender.raw() };
    }
    fast::Table::from_raw(rows)
}

/// The proved version, with the table changed in place. Answers how many records were taken.
pub fn ours(full: &raw::Table, set: &Set) -> usize {
    let mut table = *full;
    let mut taken = 0;
    for rec in set.records() {
        let rec = black_box(rec);
        let offered = black_box(&table).offer(rec, 0);
        black_box(&offered);
        if offered.answer != 0 {
            continue;
        }
        let plain = black_box(&set.plain[..]);
        let settled = black_box(&mut table).settle(rec, 0, offered.count, offered.number, 1, plain);
        black_box((settled.place, settled.length));
        taken += usize::from(settled.answer == 0);
    }
    taken
}

/// The quick reference, with its table changed in place too. The compiler may inline it.
pub fn fast(full: &fast::Table, set: &Set) -> usize {
    let mut table = full.clone();
    let mut taken = 0;
    for rec in set.records() {
        let rec = black_box(rec);
        let offered = black_box(&table).offer(rec, 0);
        black_box(&offered);
        if offered.answer != 0 {
            continue;
        }
        let plain = black_box(&set.plain[..]);
        let settled = black_box(&mut table).settle(rec, 0, offered.count, offered.number, true, plain);
        black_box((settled.place, settled.length));
        taken += usize::from(settled.answer == 0);
    }
    taken
}
