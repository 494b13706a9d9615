//! Tables of channels: rows that are free, in use, bad, or nearly free.

use super::bad::{any_receiver, any_sender};
use super::rng::Rng;
use super::states::{good_receiver, good_sender};
use crate::layout::{Record, Window};
use crate::raw::{RawRow, RawTable};
use crate::setting::Setting;

/// A table, refused as a whole about once in six times.
pub fn any_table(rng: &mut Rng) -> RawTable {
    let mut table = RawTable::default();
    let most = rng.pick(&[1, 4, 15, 16]);
    let first = rng.pick(&[0, 0, 0x1122_3340, u32::MAX - 15]);
    for (row, session) in table.iter_mut().zip(first..=u32::MAX) {
        if rng.below(16) < most {
            *row = used_row(rng, session);
        }
    }
    match rng.below(12) {
        0 => share_session(rng, &mut table),
        1 => part_row(rng, &mut table),
        _ => {}
    }
    table
}

/// A row that is not all zeros, both ends with this Session ID.
fn used_row(rng: &mut Rng, session: u32) -> RawRow {
    let mut row = match rng.below(8) {
        0 => nearly_free(rng),
        1 => RawRow {
            receiver: any_receiver(rng),
            sender: any_sender(rng),
        },
        _ => RawRow {
            receiver: good_receiver(rng),
            sender: good_sender(rng),
        },
    };
    row.receiver.setting.session = session;
    row.sender.setting.session = session;
    row
}

/// Zeros but for one field, so that no call but Close can use the row.
fn nearly_free(rng: &mut Rng) -> RawRow {
    let mut row = RawRow::default();
    let (byte, word) = (rng.below(12) as usize, rng.below(4) as usize);
    match rng.below(14) {
        0 | 1 => set_one(rng, &mut row.receiver.setting),
        2 => row.receiver.count = 1,
        3 => row.receiver.current.iv[byte] = 1,
        4 => row.receiver.current.next = 1,
        5 => row.receiver.current.marks[word] = 1,
        6 => row.receiver.held = true,
        7 => row.receiver.old.iv[byte] = 1,
        8 => row.receiver.old.next = 1,
        9 => row.receiver.old.marks[word] = 1,
        10 => set_one(rng, &mut row.sender.setting),
        11 => row.sender.count = 1,
        12 => row.sender.next = 1,
        _ => row.sender.iv[byte] = 1,
    }
    row
}

/// One field of a setting of zeros.
fn set_one(rng: &mut Rng, setting: &mut Setting) {
    match rng.below(6) {
        0 => setting.mode = 1,
        1 => setting.layout = 1,
        2 => setting.mac = rng.pick(&Record::MACS),
        3 => setting.profile = 1,
        4 => setting.width = rng.pick(&Window::WIDTHS),
        _ => setting.limit = 1,
    }
}

/// Two rows with one Session ID, if both are open.
fn share_session(rng: &mut Rng, table: &mut RawTable) {
    let (from, to) = (place(rng), place(rng));
    let session = table[from].receiver.setting.session;
    if table[to] != RawRow::default() {
        table[to].receiver.setting.session = session;
        table[to].sender.setting.session = session;
    }
}

/// A row whose two ends have different Session IDs.
fn part_row(rng: &mut Rng, table: &mut RawTable) {
    let row = &mut table[place(rng)];
    let bit = 1 << rng.below(32);
    if rng.one_in(2) {
        row.receiver.setting.session ^= bit;
    } else {
        row.sender.setting.session ^= bit;
    }
}

/// A place in the table.
fn place(rng: &mut Rng) -> usize {
    rng.below(crate::layout::Table::ROWS as u64) as usize
}
