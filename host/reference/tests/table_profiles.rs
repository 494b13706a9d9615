//! Rows of both profiles in one table, and records of 5 to 8 bytes.

mod common;

use common::{bench_record, IV};
use reference::{fast, Offered, RawTable, Setting, Settled, Table};

const STATE: u8 = 1;
const KEY: u8 = 3;
const SHORT: u8 = 4;
const LENGTH: u8 = 6;
const SMALL: u8 = 7;
const UNKNOWN: u8 = 24;

/// Session ID of the row with partial numbers.
const NUMBERED: u32 = 0x51;
/// Session ID of the row of profile 1.
const BENCH: u32 = 0x52;
/// A row with partial numbers whose state is bad.
const BAD_NUMBERED: u32 = 0x53;
/// A row whose profile is none.
const BAD_BENCH: u32 = 0x54;
/// A Session ID that no row has.
const NOBODY: u32 = 0x55;

fn table() -> RawTable {
    let mut table = Table::default();
    let rows = [(NUMBERED, 0), (BENCH, 1), (BAD_NUMBERED, 0), (BAD_BENCH, 1)];
    for (session, profile) in rows {
        let setting = Setting {
            profile,
            ..Setting::new(0, session, 1_000)
        };
        assert_eq!(table.open(setting, IV, IV).answer, 0);
    }
    let mut raw = table.raw();
    raw[2].receiver.count = 1;
    raw[2].receiver.old.next = 1;
    raw[3].receiver.setting.profile = 2;
    raw
}

/// Offers and settles in both tables; all four must give this answer, with
/// zeros in all else, and keep the table.
fn refused(rec: &[u8], slot: u8, answer: u8) {
    let raw = table();
    let (mut plain, mut quick) = (Table::from_raw(raw), fast::Table::from_raw(raw));
    let zeros = (Offered::default(), Settled::default());
    let offered = Offered { answer, ..zeros.0 };
    let settled = Settled { answer, ..zeros.1 };
    assert_eq!(plain.offer(rec, slot), offered);
    assert_eq!(quick.offer(rec, slot), offered);
    assert_eq!(plain.settle(rec, slot, 0, 0, true, &[]), settled);
    assert_eq!(quick.settle(rec, slot, 0, 0, true, &[]), settled);
    assert_eq!((plain.raw(), quick.raw()), (raw, raw));
}

/// The first bytes of a record, all zero behind the Session ID.
fn start(session: u32, len: usize) -> Vec<u8> {
    bench_record(session, 0)
        .into_iter()
        .chain([0; 2])
        .take(len)
        .collect()
}

#[test]
fn under_six_bytes_is_short_for_every_row() {
    for session in [NUMBERED, BENCH, BAD_NUMBERED, BAD_BENCH, NOBODY] {
        for len in 0..6 {
            refused(&start(session, len), 0, SHORT);
            refused(&start(session, len), 2, SHORT);
        }
    }
}

#[test]
fn six_and_seven_bytes_find_their_row() {
    for len in [6, 7] {
        refused(&start(NOBODY, len), 2, UNKNOWN);
        refused(&start(BAD_NUMBERED, len), 2, STATE);
        refused(&start(BAD_BENCH, len), 2, STATE);
        refused(&start(NUMBERED, len), 2, KEY);
        refused(&start(NUMBERED, len), 1, KEY);
        refused(&start(NUMBERED, len), 0, SHORT);
        refused(&start(BENCH, len), 2, KEY);
    }
    refused(&start(BENCH, 6), 0, SMALL);
    refused(&start(BENCH, 7), 0, LENGTH);
    refused(&start(BENCH, 8), 0, LENGTH);
    refused(&start(NUMBERED, 8), 0, SMALL);
}

#[test]
fn a_row_reads_by_its_own_profile() {
    let raw = table();
    let (mut plain, mut quick) = (Table::from_raw(raw), fast::Table::from_raw(raw));
    let rec = bench_record(BENCH, 20);
    for number in 0..3 {
        let offered = plain.offer(&rec, 0);
        assert_eq!(
            (offered.answer, offered.number, offered.assoc),
            (0, number, 10)
        );
        assert_eq!(quick.offer(&rec, 0), offered);
        let settled = plain.settle(&rec, 0, 0, number, true, &[]);
        assert_eq!((settled.answer, settled.place, settled.length), (0, 6, 4));
        assert_eq!(quick.settle(&rec, 0, 0, number, true, &[]), settled);
        assert_eq!(plain.raw(), quick.raw());
    }
    // The same bytes in the row with partial numbers are another record.
    refused(&bench_record(NUMBERED, 20), 0, LENGTH);
}

#[test]
fn a_row_builds_by_its_own_profile() {
    let mut table = Table::from_raw(table());
    let mut out = [0x77; 40];
    assert_eq!(table.build(1, &[9], &[], &mut out).total, 23);
    assert_eq!(out[..8], [0x52, 0, 0, 0, 17, 0, 9, 0x77]);
    assert_eq!(table.build(0, &[9], &[], &mut out).total, 25);
    assert_eq!(out[..10], [0x51, 0, 0, 0, 0, 0, 17, 0, 9, 0x77]);
}
