//! Windows of each width on real cipher text: how late a record may be, and which are remembered after the
//! window moved; and every bit and every width that a state may not have.
mod channel;
mod mail;
mod sealing;

use channel::Channel;
use cipher::Suite;
use compare::table::words;
use compare::{setting_in, Husk};
use husk::{raw, CURRENT, OLD, WIDTHS};
use mail::{deliver, sent};
use reference::version::{Memory, ReceiverCalls, SenderCalls, Version};
use reference::{Marks, RawKey, RawReceiver, RawRow, RawSender, RawTable, Refusal, Setting, Table};
use sealing::suites;
use std::collections::HashSet;

const TAKEN: u8 = 0;

/// A mode's setting with a window of this width.
fn setting(mode: u8, width: u16) -> Setting {
    Setting { width, ..Setting::new(mode, 0x1122_3344, u64::MAX) }
}

/// Both modes with each width.
fn settings() -> impl Iterator<Item = Setting> {
    WIDTHS.into_iter().flat_map(|width| [0, 1].map(|mode| setting(mode, width)))
}

#[test]
fn in_order_every_record_is_handed_out() {
    for setting in settings() {
        for suite in suites(setting.mac) {
            Channel::<Husk>::open(suite, setting, setting).run(|_| 0);
            Channel::<Memory>::open(suite, setting, setting).run(|_| 0);
        }
    }
}

/// Record 7 is delivered, twice, when the next number is so far beyond it, under the current key or as a late
/// record of the old one. Answers what came of it.
fn late<V: Version>(setting: Setting, by: u64, slot: u8) -> [u8; 2] {
    let mut channel = Channel::<V>::open(Suite::Aes256Gcm, setting, setting);
    let records = sent(&mut channel, 7 + by);
    for record in records.iter().filter(|record| record.number != 7) {
        assert_eq!(deliver(&mut channel, record, CURRENT), TAKEN);
    }
    if slot == OLD {
        let iv = channel.keys.iv(1);
        assert_eq!(channel.receiver.change_key(iv), 0);
    }
    [(); 2].map(|()| deliver(&mut channel, &records[7], slot))
}

/// What both versions answer alike, in both slots.
fn both(setting: Setting, by: u64) -> [u8; 2] {
    let answers = late::<Husk>(setting, by, CURRENT);
    assert_eq!((late::<Memory>(setting, by, CURRENT), late::<Husk>(setting, by, OLD)), (answers, answers));
    answers
}

#[test]
fn late_by_150() {
    let (old, once) = ([Refusal::Old.number(); 2], [TAKEN, Refusal::Repeat.number()]);
    for mode in [husk::AUTHENTICATED, husk::ENCRYPTED] {
        let answers = WIDTHS.map(|width| both(setting(mode, width), 150));
        assert_eq!(answers, [old, old, once, once]);
    }
}

#[test]
fn late_by_the_width_is_taken_and_by_one_more_is_old() {
    for setting in settings() {
        let width = u64::from(setting.width);
        for by in [width - 1, width] {
            assert_eq!(both(setting, by), [TAKEN, Refusal::Repeat.number()], "{setting:?}, {by}");
        }
        assert_eq!(both(setting, width + 1), [Refusal::Old.number(); 2], "{setting:?}");
    }
}

/// Two of three records arrive, then one that moves the next number by so many, and then all, from before the
/// window on. Each is handed out that the window has and that was not before.
fn moved<V: Version>(setting: Setting, by: u64) {
    const FIRST: u64 = 300;
    let mut channel = Channel::<V>::open(Suite::Aes256Gcm, setting, setting);
    let records = sent(&mut channel, FIRST + by);
    let next = FIRST + by;
    let mut handed: HashSet<u64> = (0..FIRST).filter(|number| number % 3 != 0).chain([next - 1]).collect();
    for record in records.iter().filter(|record| handed.contains(&record.number)) {
        assert_eq!(deliver(&mut channel, record, CURRENT), TAKEN);
    }
    let oldest = next - u64::from(setting.width);
    let missing = (oldest..next).filter(|number| !handed.contains(number)).count();
    assert_eq!(channel.receiver.gaps(CURRENT), (0, missing as u32));
    for record in &records[oldest as usize - 3..] {
        let expected = match record.number {
            number if number < oldest => Refusal::Old.number(),
            number if !handed.insert(number) => Refusal::Repeat.number(),
            _ => TAKEN,
        };
        assert_eq!(deliver(&mut channel, record, CURRENT), expected, "{setting:?}, {by}, {}", record.number);
    }
    assert_eq!(channel.receiver.gaps(CURRENT), (0, 0));
}

#[test]
fn a_window_that_moves_remembers_what_it_still_has() {
    for setting in settings() {
        for by in [1, 63, 64, 65, 128, 255, 256, 257, 1000] {
            moved::<Husk>(setting, by);
            moved::<Memory>(setting, by);
        }
    }
}

/// The words with bit 0 and this one.
fn with_bit(bit: usize) -> Marks {
    let mut marks = [1, 0, 0, 0];
    marks[bit / 64] |= 1 << (bit % 64);
    marks
}

/// A receiver with this key as its current one, and one with it as its old one.
fn states(setting: Setting, key: RawKey) -> [RawReceiver; 2] {
    let current = RawReceiver { setting, current: key, ..RawReceiver::default() };
    [current, RawReceiver { setting, count: 1, held: true, old: key, ..RawReceiver::default() }]
}

/// What Gaps of the current key answers in a version that has this receiver.
fn gaps<V: Version>(receiver: RawReceiver) -> u8 {
    V::Receiver::from_raw(receiver).gaps(CURRENT).0
}

/// The same in both versions, and in a row of both tables.
fn answers(receiver: RawReceiver) -> [u8; 4] {
    let setting = receiver.setting;
    let mut table = RawTable::default();
    table[3] = RawRow { receiver, sender: RawSender { setting, ..RawSender::default() } };
    let (ours, theirs) = (words(&table), Table::from_raw(table));
    let rows = [ours.gaps(3, CURRENT).answer, theirs.gaps(3, CURRENT).0];
    [gaps::<Husk>(receiver), gaps::<Memory>(receiver), rows[0], rows[1]]
}

/// Bits are State from the width on, and where they stand for a number below 0.
#[test]
fn each_bit_that_no_number_has_is_state() {
    for width in WIDTHS {
        for next in [1, 2, 63, 64, 65, 127, 128, 191, 192, 193, 255, 256, 257, 1000] {
            for bit in 0..256 {
                let known = next.min(u64::from(width)) as usize;
                let key = RawKey { next, marks: with_bit(bit), ..RawKey::default() };
                for state in states(setting(0, width), key) {
                    assert_eq!(answers(state), [u8::from(bit >= known); 4], "{width} {next} {bit}");
                }
            }
        }
    }
}

/// A key that marked nothing has no bit in any word, nor has an old key that is not held.
#[test]
fn each_bit_of_an_empty_key_is_state() {
    for width in WIDTHS {
        let empty = RawReceiver { setting: setting(0, width), ..RawReceiver::default() };
        assert_eq!(answers(empty), [0; 4]);
        for bit in 0..256 {
            let mut marks = with_bit(bit);
            marks[0] &= !u64::from(bit != 0);
            let key = RawKey { marks, ..RawKey::default() };
            for state in states(empty.setting, key).into_iter().chain([RawReceiver { old: key, ..empty }]) {
                assert_eq!(answers(state), [1; 4], "{width} {bit}");
            }
        }
    }
}

/// What both Opens of a version answer, and the states they leave.
fn opened<V: Version>(setting: Setting) -> ([u8; 2], RawSender, RawReceiver) {
    let (sent, sender) = V::Sender::open(setting, [1; 12]);
    let (received, receiver) = V::Receiver::open(setting, [1; 12]);
    ([sent, received], sender.raw(), receiver.raw())
}

/// Any other width is Setting at Open, and State where a state has it.
#[test]
fn each_width_but_the_four_is_refused() {
    for width in 0..=u16::MAX {
        let (bad, setting) = (!WIDTHS.contains(&width), setting(1, width));
        let refused = if bad { Refusal::Setting.number() } else { 0 };
        let ours = opened::<Husk>(setting);
        assert_eq!((ours.0, &ours), ([refused; 2], &opened::<Memory>(setting)), "{width}");
        let state = RawReceiver { setting, ..RawReceiver::default() };
        assert_eq!([gaps::<Husk>(state), gaps::<Memory>(state)], [u8::from(bad); 2], "{width}");
        // To make so many tables takes long, so they have those that look most like one of the four.
        if width % 64 < 2 {
            let row = raw::Table::default().open(setting_in(setting), [1; 12], [2; 12]).answer;
            assert_eq!((row, Table::default().open(setting, [1; 12], [2; 12]).answer), (refused, refused), "{width}");
            assert_eq!(answers(state), [u8::from(bad); 4], "{width}");
        }
    }
}
