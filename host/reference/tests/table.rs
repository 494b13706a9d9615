//! The table of channels, rule by rule.

mod common;

use common::{bad_settings, IV};
use reference::{
    fast, Built, Offered, Opened, RawReceiver, RawRow, RawTable, Setting, Settled, Table,
};

const STATE: u8 = 1;
const SETTING: u8 = 2;
const SHORT: u8 = 4;
const TWICE: u8 = 22;
const ROWS: u8 = 23;
const UNKNOWN: u8 = 24;
const OTHER_IV: [u8; 12] = [0xA5; 12];

/// The Session ID of the channel that `filled` opens in a row.
fn session(row: u8) -> u32 {
    0x5100 + u32::from(row)
}

fn setting(session: u32) -> Setting {
    Setting::new(1, session, 1_000)
}

fn opened(answer: u8, row: u8) -> Opened {
    Opened { answer, row }
}

/// A table with so many channels open, from row 0 on.
fn filled(rows: u8) -> Table {
    let mut table = Table::default();
    for row in 0..rows {
        let answer = table.open(setting(session(row)), IV, OTHER_IV);
        assert_eq!(answer, opened(0, row));
    }
    table
}

/// A record in mode 1 without data, with zeros for its MAC.
fn record(session: u32, low: u16) -> Vec<u8> {
    let mut rec = session.to_le_bytes().to_vec();
    rec.extend(low.to_le_bytes());
    rec.extend(18u16.to_le_bytes());
    rec.resize(26, 0);
    rec
}

/// The answers of all nine calls (Open with this setting), each on the same
/// table; every refused call must keep it and write nothing.
fn answers(table: &Table, new: Setting, row: u8, rec: &[u8]) -> [u8; 9] {
    let before = table.raw();
    let mut out = [0x77; 40];
    let mut copies: [Table; 9] = std::array::from_fn(|_| table.clone());
    let [open, close, offer, settle, build, gaps, receiver, sender, drop] = &mut copies;
    let built = build.build(row, &[1, 2], &[3], &mut out);
    let answers = [
        open.open(new, IV, OTHER_IV).answer,
        close.close(row),
        offer.offer(rec, 0).answer,
        settle.settle(rec, 0, 0, 0, true, &[0, 0]).answer,
        built.answer,
        gaps.gaps(row, 0).0,
        receiver.change_receiver_key(row, OTHER_IV),
        sender.change_sender_key(row, IV),
        drop.drop_old(row),
    ];
    for (copy, answer) in copies.iter().zip(answers) {
        assert!(answer == 0 || copy.raw() == before);
    }
    if built.answer != 0 {
        let answer = built.answer;
        let zeros = Built::default();
        assert_eq!((built, out), (Built { answer, ..zeros }, [0x77; 40]));
    }
    answers
}

/// Only these rows differ.
fn changed(before: &RawTable, after: &RawTable) -> Vec<usize> {
    (0..16).filter(|&i| before[i] != after[i]).collect()
}

/// A row that is bad but for its Session ID: no limit, and a count in it.
fn bad_row(session: u32) -> RawRow {
    let mut row = RawRow::default();
    row.receiver.setting.session = session;
    row.sender.setting.session = session;
    row.receiver.count = 9;
    row
}

#[test]
fn open_takes_the_lowest_free_row() {
    let mut table = filled(5);
    assert_eq!(table.close(3), 0);
    assert_eq!(table.close(1), 0);
    assert_eq!(table.open(setting(70), IV, OTHER_IV), opened(0, 1));
    assert_eq!(table.open(setting(71), IV, OTHER_IV), opened(0, 3));
    assert_eq!(table.open(setting(72), IV, OTHER_IV), opened(0, 5));
}

#[test]
fn open_gives_each_direction_its_iv() {
    let mut table = Table::default();
    assert_eq!(table.open(setting(7), IV, OTHER_IV), opened(0, 0));
    let row = table.raw()[0];
    let (_, receiver) = reference::memory::Receiver::open(setting(7), IV);
    let (_, sender) = reference::memory::Sender::open(setting(7), OTHER_IV);
    assert_eq!((row.receiver, row.sender), (receiver.raw(), sender.raw()));
    assert_eq!(changed(&RawTable::default(), &table.raw()), [0]);
}

/// Open in a table of so many rows gives this refusal and changes nothing.
fn open_refuses(rows: u8, setting: Setting, answer: u8) {
    let mut table = filled(rows);
    let before = table.raw();
    assert_eq!(table.open(setting, IV, OTHER_IV), opened(answer, 0));
    assert_eq!(table.raw(), before);
}

#[test]
fn open_refuses_in_its_order() {
    for bad in bad_settings() {
        let session = session(0);
        for rows in [0, 1, 16] {
            open_refuses(rows, Setting { session, ..bad }, SETTING);
        }
    }
    open_refuses(16, setting(session(15)), TWICE);
    open_refuses(16, setting(session(16)), ROWS);
    open_refuses(15, setting(session(14)), TWICE);
    assert_eq!(filled(15).open(setting(session(15)), IV, IV), opened(0, 15));
}

#[test]
fn a_full_table_takes_one_more_after_a_close() {
    let mut table = filled(16);
    assert_eq!(table.open(setting(70), IV, IV), opened(ROWS, 0));
    assert_eq!(table.close(15), 0);
    assert_eq!(table.open(setting(70), IV, IV), opened(0, 15));
    assert_eq!(table.open(setting(71), IV, IV), opened(ROWS, 0));
}

#[test]
fn session_zero_is_one_like_any_other() {
    let mut table = Table::default();
    assert_eq!(table.offer(&record(0, 0), 0).answer, UNKNOWN);
    assert_eq!(table.open(setting(0), IV, IV), opened(0, 0));
    assert_eq!(table.open(setting(0), IV, IV), opened(TWICE, 0));
    assert_eq!(table.open(setting(1), IV, IV), opened(0, 1));
    assert_eq!(table.offer(&record(0, 0), 0).answer, 0);
    assert_eq!(table.close(0), 0);
    assert_eq!(table.offer(&record(0, 0), 0).answer, UNKNOWN);
}

#[test]
fn no_row_is_unknown() {
    let new = setting(70);
    let unknown = record(session(9), 0);
    for (rows, row) in [
        (4, 4),
        (4, 15),
        (4, 16),
        (4, 255),
        (16, 16),
        (16, 255),
        (0, 0),
    ] {
        let table = filled(rows);
        let open = if rows == 16 { ROWS } else { 0 };
        let delivery = if rows == 16 { 0 } else { UNKNOWN };
        let mut expected = [UNKNOWN; 9];
        expected[0] = open;
        expected[2] = delivery;
        expected[3] = delivery;
        assert_eq!(
            answers(&table, new, row, &unknown),
            expected,
            "{rows} {row}"
        );
    }
}

#[test]
fn unknown_comes_before_the_slot() {
    let table = filled(4);
    assert_eq!(table.gaps(4, 9), (UNKNOWN, 0));
    assert_eq!(table.gaps(3, 9), (3, 0));
    assert_eq!(table.gaps(3, 0), (0, 0));
    assert_eq!(table.offer(&record(session(9), 0), 9).answer, UNKNOWN);
    assert_eq!(table.offer(&record(session(3), 0), 9).answer, 3);
}

#[test]
fn two_equal_sessions_are_state_in_every_call() {
    let mut raw = filled(6).raw();
    raw[4].receiver.setting.session = session(1);
    raw[4].sender.setting.session = session(1);
    state_everywhere(raw);
    // The same with two rows that are bad themselves.
    let mut raw = filled(2).raw();
    raw[9] = bad_row(5);
    raw[15] = bad_row(5);
    state_everywhere(raw);
    // Session 0 twice, beside free rows.
    let mut raw = filled(2).raw();
    raw[9] = bad_row(0);
    raw[15] = bad_row(0);
    state_everywhere(raw);
}

#[test]
fn two_ends_that_differ_are_state_in_every_call() {
    let mut raw = filled(6).raw();
    raw[5].sender.setting.session ^= 1 << 31;
    state_everywhere(raw);
    let mut raw = filled(6).raw();
    raw[0].receiver.setting.session ^= 1 << 31;
    state_everywhere(raw);
    let mut raw = filled(6).raw();
    raw[12].sender.setting.session = 1;
    state_everywhere(raw);
}

/// State comes before all else, whatever the call and the row.
fn state_everywhere(raw: RawTable) {
    let table = Table::from_raw(raw);
    assert_eq!(table.raw(), raw);
    let worse = Setting {
        mode: 2,
        ..setting(session(0))
    };
    let fine = record(session(0), 0);
    for row in [0, 1, 4, 5, 9, 14, 15, 16, 255] {
        for (new, rec) in [(setting(70), &fine[..]), (worse, &fine[..7]), (worse, &[])] {
            assert_eq!(answers(&table, new, row, rec), [STATE; 9]);
            let mut quick = fast::Table::from_raw(raw);
            assert_eq!(quick.offer(rec, 0).answer, STATE);
            assert_eq!(quick.settle(rec, 0, 0, 0, true, &[0, 0]).answer, STATE);
            assert_eq!(quick.raw(), raw);
        }
    }
}

#[test]
fn a_bad_row_hinders_no_other() {
    let mut raw = filled(4).raw();
    raw[2] = bad_row(0xBAD);
    raw[9] = bad_row(0);
    let table = Table::from_raw(raw);
    let new = setting(70);
    let drop = 3; // no old key is held in a new row
    for row in [0, 1, 3] {
        let rec = record(session(row), 0);
        let expected = [0, 0, 0, 0, 0, 0, 0, 0, drop];
        assert_eq!(answers(&table, new, row, &rec), expected);
    }
    for (row, session) in [(2, 0xBAD), (9, 0)] {
        let rec = record(session, 0);
        let expected = [TWICE, 0, 1, 1, 1, 1, 1, 1, 1];
        assert_eq!(answers(&table, setting(session), row, &rec), expected);
    }
}

#[test]
fn a_bad_row_is_not_free() {
    let mut raw = filled(16).raw();
    raw[7] = bad_row(0xBAD);
    let mut table = Table::from_raw(raw);
    assert_eq!(table.open(setting(70), IV, IV), opened(ROWS, 0));
    assert_eq!(table.close(7), 0);
    assert_eq!(table.raw()[7], RawRow::default());
    assert_eq!(table.open(setting(0xBAD), IV, IV), opened(0, 7));
}

#[test]
fn one_bad_end_leaves_the_other_its_calls() {
    let mut raw = filled(2).raw();
    raw[1].sender.next = 1_001;
    let table = Table::from_raw(raw);
    let rec = record(session(1), 0);
    let expected = [0, 0, 0, 0, STATE, 0, 0, STATE, 3];
    assert_eq!(answers(&table, setting(70), 1, &rec), expected);
}

#[test]
fn short_comes_before_unknown() {
    for rows in [0, 3, 16] {
        let mut table = filled(rows);
        let before = table.raw();
        let rec = record(0xFFFF_FFFF, 0);
        for (rec, answer) in [(&rec[..0], SHORT), (&rec[..5], SHORT), (&rec[..6], UNKNOWN)] {
            let offered = table.offer(rec, 9);
            let settled = table.settle(rec, 9, 0, 0, true, &[]);
            let zeros = (Offered::default(), Settled::default());
            assert_eq!(offered, Offered { answer, ..zeros.0 });
            assert_eq!(settled, Settled { answer, ..zeros.1 });
        }
        assert_eq!(table.raw(), before);
    }
    // A short record names no row, so a bad row's State is not reached.
    let mut raw = RawTable::default();
    raw[0] = bad_row(0);
    let table = Table::from_raw(raw);
    assert_eq!(table.offer(&[0; 5], 0).answer, SHORT);
    assert_eq!(table.offer(&[0; 6], 0).answer, STATE);
}

#[test]
fn a_record_for_row_three_changes_row_three_only() {
    let mut table = filled(16);
    let before = table.raw();
    let rec = record(session(3), 5);
    let offered = table.offer(&rec, 0);
    assert_eq!((offered.answer, offered.number), (0, 5));
    assert_eq!(offered.nonce[0], IV[0] ^ 5);
    assert_eq!(table.raw(), before);
    let settled = table.settle(&rec, 0, 0, 5, true, &[0, 0]);
    assert_eq!((settled.answer, settled.place, settled.length), (0, 2, 0));
    let after = table.raw();
    assert_eq!(changed(&before, &after), [3]);
    assert_eq!(after[3].sender, before[3].sender);
    assert_eq!(after[3].receiver.current.next, 6);
    assert_eq!(table.gaps(3, 0), (0, 5));
    assert_eq!(table.gaps(2, 0), (0, 0));
    assert_eq!(table.offer(&rec, 0).answer, 10);
    assert_eq!(table.offer(&record(session(4), 5), 0).answer, 0);
}

#[test]
fn inner_marks_in_its_row_and_nothing_else() {
    let mut table = filled(16);
    let before = table.raw();
    let rec = record(session(3), 5);
    let settled = table.settle(&rec, 0, 0, 5, true, &[1, 0]);
    let zeros = Settled::default();
    assert_eq!(
        settled,
        Settled {
            answer: 14,
            ..zeros
        }
    );
    let mut marked = before;
    marked[3].receiver.current.next = 6;
    marked[3].receiver.current.marks[0] = 1;
    assert_eq!(table.raw(), marked);
}

#[test]
fn calls_by_row_change_that_row_only() {
    let calls: [fn(&mut Table) -> u8; 4] = [
        |table| table.build(6, &[1, 2], &[3], &mut [0; 40]).answer,
        |table| table.change_receiver_key(6, OTHER_IV),
        |table| table.change_sender_key(6, IV),
        |table| table.drop_old(6),
    ];
    let mut table = filled(16);
    for call in calls {
        let before = table.raw();
        assert_eq!(call(&mut table), 0);
        assert_eq!(changed(&before, &table.raw()), [6]);
    }
    let row = table.raw()[6];
    assert_eq!((row.receiver.count, row.receiver.held), (1, false));
    assert_eq!((row.sender.count, row.sender.next), (1, 0));
    assert_eq!((row.receiver.current.iv, row.sender.iv), (OTHER_IV, IV));
}

#[test]
fn a_built_record_has_the_rows_session() {
    let mut table = filled(4);
    let mut out = [0x77; 40];
    let built = table.build(2, &[1, 2], &[3], &mut out);
    assert_eq!((built.answer, built.number, built.total), (0, 0, 29));
    assert_eq!(out[..4], session(2).to_le_bytes());
    assert_eq!(built.nonce, OTHER_IV);
    assert_eq!(out[13..], [0x77; 27]);
    assert_eq!(table.build(2, &[], &[], &mut out).number, 1);
    assert_eq!(table.build(3, &[], &[], &mut out).number, 0);
}

#[test]
fn a_reopened_row_is_a_new_channel() {
    let mut table = filled(4);
    let fresh = table.raw();
    let rec = record(session(3), 5);
    assert_eq!(table.settle(&rec, 0, 0, 5, true, &[0, 0]).answer, 0);
    assert_eq!(table.build(3, &[], &[], &mut [0; 40]).answer, 0);
    assert_eq!(table.change_receiver_key(3, OTHER_IV), 0);
    assert_eq!(table.close(3), 0);
    assert_eq!(table.raw()[3], RawRow::default());
    assert_eq!(table.close(3), UNKNOWN);
    assert_eq!(table.offer(&rec, 0).answer, UNKNOWN);
    let again = table.open(setting(session(3)), IV, OTHER_IV);
    assert_eq!((again, table.raw()), (opened(0, 3), fresh));
    assert_eq!(table.settle(&rec, 0, 0, 5, true, &[0, 0]).answer, 0);
}

#[test]
fn the_quick_table_delivers_the_same() {
    let mut raw = filled(10).raw();
    raw[12] = bad_row(0);
    raw[13].receiver = RawReceiver {
        held: true,
        ..RawReceiver::default()
    };
    raw[13].receiver.setting.session = 13;
    raw[13].sender.setting.session = 13;
    let mut plain = Table::from_raw(raw);
    let mut quick = fast::Table::from_raw(raw);
    for session in [session(0), session(9), session(10), 0, 13, u32::MAX] {
        let rec = record(session, 2);
        for rec in [
            &rec[..],
            &rec[..25],
            &rec[..8],
            &rec[..7],
            &rec[..6],
            &rec[..5],
        ] {
            assert_eq!(plain.offer(rec, 0), quick.offer(rec, 0));
            let settled = plain.settle(rec, 0, 0, 2, true, &[0, 0]);
            assert_eq!(settled, quick.settle(rec, 0, 0, 2, true, &[0, 0]));
            assert_eq!(plain.raw(), quick.raw());
        }
    }
}
