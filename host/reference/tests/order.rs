//! Refusals in their order: each call begins with every fault it can have at
//! once, and one after another is repaired.

mod common;

use common::{key, low_word, receiver, receiver_with_old, record, sender};
use reference::version::{ReceiverCalls, SenderCalls, Version};
use reference::{RawKey, RawReceiver, RawSender, Setting};

/// Records and slots that pass one check more each time. The state has L = 200,
/// E = 100 with 99 marked, and no old key.
fn rungs() -> Vec<(u8, Vec<u8>, u8)> {
    let other_session = |mut rec: Vec<u8>| {
        rec[0] ^= 1;
        rec
    };
    let cut = |low| record(low, 30)[..20].to_vec();
    vec![
        (2, vec![], 3),
        (1, vec![], 3),
        (0, vec![], 4),
        (0, record(300, 30)[..7].to_vec(), 4),
        (0, other_session(cut(300)), 5),
        (0, cut(300), 6),
        (0, record(300, 17), 7),
        (0, record(300, 18), 8),
        (0, record(200, 18), 8),
        (0, record(35, 18), 9),
        (0, record(99, 18), 10),
        (0, record(36, 18), 0),
        (0, record(199, 18), 0),
    ]
}

fn state() -> RawReceiver {
    let state = receiver(1, 100, 1);
    let setting = Setting {
        limit: 200,
        ..state.setting
    };
    RawReceiver { setting, ..state }
}

fn bad(state: RawReceiver) -> RawReceiver {
    let old = key(0, 0);
    RawReceiver { old, ..state }
}

fn offer<V: Version>() {
    for (slot, rec, answer) in rungs() {
        let offered = V::Receiver::from_raw(state()).offer(&rec, slot);
        assert_eq!(offered.answer, answer);
        let offered = V::Receiver::from_raw(bad(state())).offer(&rec, slot);
        assert_eq!(offered.answer, 1);
    }
}

fn settle_repeats_offer<V: Version>() {
    for (slot, rec, answer) in rungs() {
        // Stale, Plain and Mac too, so that the earlier ones must win.
        let answer = if answer == 0 { 11 } else { answer };
        let mut receiver = V::Receiver::from_raw(state());
        let settled = receiver.settle(&rec, slot, 9, 9, false, &[]);
        assert_eq!(settled.answer, answer);
        let mut receiver = V::Receiver::from_raw(bad(state()));
        assert_eq!(receiver.settle(&rec, slot, 9, 9, false, &[]).answer, 1);
    }
}

fn settle_after_offer<V: Version>() {
    let rec = record(36, 19);
    for (count, number, passed, plain, answer) in [
        (1, 36, false, &[9, 9][..], 11),
        (0, 37, false, &[9, 9], 11),
        (0, 36 + 65_536, false, &[9, 9], 11),
        (0, 36, false, &[9, 9], 12),
        (0, 36, false, &[9, 9, 9, 9], 12),
        (0, 36, false, &[9, 9, 9], 13),
        (0, 36, true, &[9, 9, 9], 14),
        (0, 36, true, &[0, 1, 0], 14),
        (0, 36, true, &[2, 0, 0], 14),
        (0, 36, true, &[1, 0, 0], 0),
    ] {
        let mut receiver = V::Receiver::from_raw(state());
        let settled = receiver.settle(&rec, 0, count, number, passed, plain);
        assert_eq!(settled.answer, answer);
        let marked = answer == 0 || answer == 14;
        let marks = low_word(1 | u64::from(marked) << 63);
        assert_eq!(receiver.raw().current.marks, marks);
    }
}

fn plain_in_mode_0<V: Version>() {
    let rec = record(0, 16);
    let mut receiver = V::Receiver::from_raw(receiver(0, 0, 0));
    assert_eq!(receiver.settle(&rec, 0, 0, 0, false, &[0]).answer, 12);
    assert_eq!(receiver.settle(&rec, 0, 0, 0, false, &[]).answer, 13);
    assert_eq!(receiver.settle(&rec, 0, 0, 0, true, &[]).answer, 0);
}

fn smallest_lengths<V: Version>() {
    for (mode, length, answer) in [
        (0, 0, 7),
        (0, 15, 7),
        (0, 16, 0),
        (1, 16, 7),
        (1, 17, 7),
        (1, 18, 0),
    ] {
        let receiver = V::Receiver::from_raw(receiver(mode, 0, 0));
        assert_eq!(receiver.offer(&record(0, length), 0).answer, answer);
    }
}

fn build<V: Version>() {
    let at = |mode, limit, next| {
        let state = sender(mode, next);
        let setting = Setting {
            limit,
            ..state.setting
        };
        RawSender { setting, ..state }
    };
    let large = vec![0; 65_520];
    for (state, app, random, room, answer) in [
        (at(0, 5, 6), &large[..], &[1][..], 0, 1),
        (at(0, 5, 5), &large, &[1], 0, 8),
        (at(0, 5, 4), &large, &[1], 0, 15),
        (at(0, 5, 4), &large, &[], 0, 16),
        (at(0, 5, 4), &[1], &[], 24, 17),
        (at(0, 5, 4), &[1], &[], 25, 0),
        (at(1, 5, 4), &large[..65_517], &[1], 0, 16),
        (at(1, 5, 4), &[1], &[1], 27, 17),
        (at(1, 5, 4), &[1], &[1], 28, 0),
    ] {
        let mut out = vec![0; room];
        let built = V::Sender::from_raw(state).build(app, random, &mut out);
        assert_eq!(built.answer, answer);
    }
}

fn key_change_and_drop<V: Version>() {
    let zero = RawKey::default();
    let plain = receiver(0, 0, 0);
    let held = receiver_with_old(0, zero, zero);
    let last = |state| RawReceiver {
        count: u32::MAX,
        ..state
    };
    let broken = |state: RawReceiver| RawReceiver {
        current: key(0, 1),
        ..state
    };
    for (state, change, drop) in [
        (broken(last(held)), 1, 1),
        (broken(plain), 1, 1),
        (last(held), 18, 0),
        (held, 18, 0),
        (last(plain), 19, 3),
        (plain, 0, 3),
    ] {
        let mut changer = V::Receiver::from_raw(state);
        assert_eq!(changer.change_key([7; 12]), change);
        let mut dropper = V::Receiver::from_raw(state);
        assert_eq!(dropper.drop_old(), drop);
    }
}

fn gaps<V: Version>() {
    let state = receiver(0, 100, 1);
    let receiver = V::Receiver::from_raw(state);
    assert_eq!(receiver.gaps(0), (0, 63));
    assert_eq!(receiver.gaps(1), (3, 0));
    assert_eq!(receiver.gaps(2), (3, 0));
    assert_eq!(V::Receiver::from_raw(bad(state)).gaps(2), (1, 0));
}

for_both!(
    offer,
    settle_repeats_offer,
    settle_after_offer,
    plain_in_mode_0,
    smallest_lengths,
    build,
    key_change_and_drop,
    gaps,
);
