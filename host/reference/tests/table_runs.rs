//! Random tables: the quick one against the plain one in delivery, and the
//! plain one's promises for every call.

use reference::memory::{receiver_is_bad, sender_is_bad};
use reference::random::{
    any_setting, any_table, receiver_call, sender_call, ReceiverCall, Rng, SenderCall,
};
use reference::table::{row_is_free, table_is_bad};
use reference::{fast, RawRow, RawTable, Refusal, Table};

/// One call made on a table: its answer number, and whether a buffer it was
/// given changed.
struct Made {
    answer: u8,
    written: bool,
}

/// How often each answer number was seen.
type Seen = [u64; 25];

/// A row number: mostly one that there is.
fn row(rng: &mut Rng) -> u8 {
    match rng.below(16) {
        0 => rng.pick(&[16, 17, 128, 255]),
        _ => rng.below(16) as u8,
    }
}

/// The row of this number, or zeros.
fn row_of(table: &RawTable, row: u8) -> RawRow {
    table.get(usize::from(row)).copied().unwrap_or_default()
}

/// Any of the nine calls, about this row. A record goes by its Session ID.
fn call(rng: &mut Rng, table: &mut Table, row: u8) -> Made {
    let state = row_of(&table.raw(), row);
    match rng.below(8) {
        0 => open_or_close(rng, table, row),
        1 | 2 => send(rng, table, row, &state),
        _ => receive(rng, table, row, &state),
    }
}

fn made(answer: u8) -> Made {
    let written = false;
    Made { answer, written }
}

fn open_or_close(rng: &mut Rng, table: &mut Table, row: u8) -> Made {
    if rng.one_in(3) {
        return made(table.close(row));
    }
    let mut setting = any_setting(rng);
    if rng.one_in(3) {
        setting.session = row_of(&table.raw(), row).receiver.setting.session;
    }
    let opened = table.open(setting, rng.iv(), rng.iv());
    assert!(opened.answer == 0 || opened.row == 0);
    made(opened.answer)
}

fn send(rng: &mut Rng, table: &mut Table, row: u8, state: &RawRow) -> Made {
    match sender_call(rng, &state.sender) {
        SenderCall::ChangeKey { iv } => made(table.change_sender_key(row, iv)),
        SenderCall::Build { app, random, out } => {
            let mut after = out.clone();
            let answer = table.build(row, &app, &random, &mut after).answer;
            let written = after != out;
            Made { answer, written }
        }
    }
}

fn receive(rng: &mut Rng, table: &mut Table, row: u8, state: &RawRow) -> Made {
    made(match receiver_call(rng, &state.receiver) {
        ReceiverCall::Gaps { slot } => table.gaps(row, slot).0,
        ReceiverCall::Offer { rec, slot } => table.offer(&rec, slot).answer,
        ReceiverCall::Settle {
            rec,
            slot,
            count,
            number,
            passed,
            plain,
        } => {
            let settled = table.settle(&rec, slot, count, number, passed, &plain);
            settled.answer
        }
        ReceiverCall::ChangeKey { iv } => table.change_receiver_key(row, iv),
        ReceiverCall::DropOld => table.drop_old(row),
    })
}

/// What must hold after every call, whichever it was.
fn kept_promises(before: &RawTable, after: &RawTable, made: &Made) {
    let changed: Vec<usize> = (0..16).filter(|&i| before[i] != after[i]).collect();
    assert!(changed.len() <= 1, "one row at most");
    assert!(made.answer == 0 || !made.written, "nothing is written");
    if table_is_bad(before) {
        assert_eq!(made.answer, Refusal::State.number());
    }
    match (made.answer, &changed[..]) {
        (0, _) | (_, []) => {}
        (answer, &[row]) => {
            assert_eq!(answer, Refusal::Inner.number());
            assert_eq!(before[row].sender, after[row].sender);
        }
        _ => panic!("a refusal changed the table"),
    }
    assert!(table_is_bad(before) == table_is_bad(after));
    for (old, new) in before.iter().zip(after) {
        good_stays_good(old, new);
    }
}

/// No call turns a row that is free or good into a bad one.
fn good_stays_good(old: &RawRow, new: &RawRow) {
    let bad = |row: &RawRow| receiver_is_bad(&row.receiver) || sender_is_bad(&row.sender);
    assert!(row_is_free(new) || !bad(new) || (bad(old) && !row_is_free(old)));
}

#[test]
fn every_call_keeps_its_promises() {
    let mut rng = Rng::new(51);
    let mut seen: Seen = [0; 25];
    for _ in 0..60_000 {
        let mut table = Table::from_raw(any_table(&mut rng));
        for _ in 0..4 {
            let before = table.raw();
            let row = row(&mut rng);
            let made = call(&mut rng, &mut table, row);
            kept_promises(&before, &table.raw(), &made);
            seen[usize::from(made.answer)] += 1;
        }
    }
    // Session cannot differ in the row that has it; 20 and 21 are wrapping.
    for answer in (0..25).filter(|answer| ![5, 20, 21].contains(answer)) {
        assert!(seen[answer] > 10, "{answer} {seen:?}");
    }
    assert_eq!(seen[5] + seen[20] + seen[21], 0);
}

#[test]
fn the_quick_table_delivers_like_the_plain_one() {
    let mut rng = Rng::new(52);
    let mut seen: Seen = [0; 25];
    for _ in 0..60_000 {
        let raw = any_table(&mut rng);
        let mut plain = Table::from_raw(raw);
        let mut quick = fast::Table::from_raw(raw);
        assert_eq!((plain.raw(), quick.raw()), (raw, raw));
        for _ in 0..6 {
            let row = row(&mut rng);
            let answer = deliver(&mut rng, &mut plain, &mut quick, row);
            seen[usize::from(answer)] += 1;
            assert_eq!(plain.raw(), quick.raw());
        }
    }
    for answer in [0, 1, 3, 4, 6, 7, 8, 9, 10, 11, 12, 13, 14, 24] {
        assert!(seen[answer] > 10, "{answer} {seen:?}");
    }
}

/// A record for the row, offered or settled in both.
fn deliver(rng: &mut Rng, plain: &mut Table, quick: &mut fast::Table, row: u8) -> u8 {
    let state = row_of(&plain.raw(), row);
    match receiver_call(rng, &state.receiver) {
        ReceiverCall::Offer { rec, slot } => {
            let offered = plain.offer(&rec, slot);
            assert_eq!(offered, quick.offer(&rec, slot));
            offered.answer
        }
        ReceiverCall::Settle {
            rec,
            slot,
            count,
            number,
            passed,
            plain: text,
        } => {
            let settled = plain.settle(&rec, slot, count, number, passed, &text);
            let other = quick.settle(&rec, slot, count, number, passed, &text);
            assert_eq!(settled, other);
            settled.answer
        }
        _ => 0,
    }
}
