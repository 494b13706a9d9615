//! The proved table answers as the independent one: on runs of all nine calls from an empty table, and on
//! single calls on any table, with and without bits above the numbers; and every refusal that a table has is
//! met on the way.
use compare::table::{table_calls, table_runs, Call, TableTally};
use husk::raw;
use reference::random::ReceiverCall;
use reference::{Refusal, Setting, Table};

const SEED: u64 = 0x5eed_0002;

fn alike(part: Result<TableTally, String>) -> TableTally {
    match part {
        Ok(tally) => tally,
        Err(difference) => panic!("{difference}"),
    }
}

/// Session can't differ in the row that has it; 20 and 21 are the wrapping's.
const NEVER: [u8; 3] = [5, 20, 21];

#[test]
fn runs_from_an_empty_table() {
    let tally = alike(table_runs(SEED, 80, 200));
    for answer in [22, 23, 24] {
        assert!(tally.answered(answer) > 20, "{answer} was met {} times", tally.answered(answer));
    }
    assert!(tally.answered(10) > 20, "no record was repeated");
    assert_eq!(tally.answered(1), 0, "no call leads to a bad table");
    for (kind, name) in Call::NAMES.iter().enumerate() {
        assert!(tally.of(kind) > 20, "{name}");
    }
}

#[test]
fn single_calls_on_any_table() {
    let tally = alike(table_calls(SEED, 5_000));
    for answer in 0..25 {
        let met = tally.answered(answer) > 0;
        assert_eq!(met, !NEVER.contains(&answer), "{answer} was met {} times", tally.answered(answer));
    }
    for (kind, name) in Call::NAMES.iter().enumerate() {
        assert!(tally.of(kind) > 20, "{name}");
    }
}

/// What both tables answer to a record of zeros behind this Session ID, settled in this slot.
fn settled(tables: &mut (raw::Table, Table), session: u32, length: usize, slot: u8) -> u8 {
    let mut rec = session.to_le_bytes().to_vec();
    rec.resize(length, 0);
    let call =
        Call::Receive(0, ReceiverCall::Settle { rec, slot, count: 0, number: 0, passed: true, plain: Vec::new() });
    let answer = call.in_husk(&mut tables.0, 0);
    assert_eq!(answer, call.in_reference(&mut tables.1));
    answer.number()
}

/// Six bytes are enough for the table to look for a row; each row then has a header of its own.
#[test]
fn records_about_as_long_as_a_header() {
    let mut tables = (raw::Table::default(), Table::default());
    for profile in [husk::PROFILE_BUS, husk::PROFILE_BENCH] {
        let open = Call::Open(Setting { profile, ..Setting::new(0, profile.into(), 9) }, [1; 12], [2; 12]);
        assert_eq!((open.in_husk(&mut tables.0, 0).number(), open.in_reference(&mut tables.1).number()), (0, 0));
    }
    for (session, slot, answers) in [
        (0, 0, [Refusal::Short, Refusal::Short, Refusal::Short, Refusal::Small, Refusal::Length]),
        (1, 0, [Refusal::Short, Refusal::Small, Refusal::Length, Refusal::Length, Refusal::Length]),
        (0, 1, [Refusal::Short, Refusal::Key, Refusal::Key, Refusal::Key, Refusal::Key]),
        (1, 1, [Refusal::Short, Refusal::Key, Refusal::Key, Refusal::Key, Refusal::Key]),
        (2, 0, [Refusal::Short, Refusal::Unknown, Refusal::Unknown, Refusal::Unknown, Refusal::Unknown]),
    ] {
        let met = [5, 6, 7, 8, 9].map(|length| settled(&mut tables, session, length, slot));
        assert_eq!(met, answers.map(Refusal::number));
        assert_eq!(settled(&mut tables, session, 4, slot), Refusal::Short.number());
    }
}
