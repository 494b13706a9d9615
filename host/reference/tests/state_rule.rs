//! The State rule, clause by clause, and the states just on its good side.

mod common;

use common::{bad_settings, key, low_word, receiver, receiver_with_old, record, sender, IV};
use reference::version::{ReceiverCalls, SenderCalls, Version};
use reference::{RawKey, RawReceiver, RawSender, Setting};

/// The answers of every receiver call, and whether the state was kept.
fn answers<V: Version>(state: RawReceiver) -> ([u8; 5], bool) {
    let mut receiver = V::Receiver::from_raw(state);
    let rec = record(0, 18);
    let answers = [
        receiver.gaps(0).0,
        receiver.offer(&rec, 0).answer,
        receiver.settle(&rec, 0, 0, 0, false, &[]).answer,
        receiver.change_key([7; 12]),
        receiver.drop_old(),
    ];
    (answers, receiver.raw() == state)
}

fn limited(limit: u64, state: RawReceiver) -> RawReceiver {
    let setting = Setting {
        limit,
        ..state.setting
    };
    RawReceiver { setting, ..state }
}

/// A held old key with these fields.
fn with_old(next: u64, marks: u64) -> RawReceiver {
    receiver_with_old(0, key(0, 0), key(next, marks))
}

/// No old key held, with these fields left.
fn stray(old: RawKey) -> RawReceiver {
    RawReceiver {
        old,
        ..receiver(0, 0, 0)
    }
}

fn bad_states() -> Vec<RawReceiver> {
    let good = with_old(0, 0);
    let zero = RawKey::default();
    let mut last_iv_byte = zero;
    last_iv_byte.iv[11] = 1;
    vec![
        RawReceiver::default(),
        limited(9, receiver(0, 10, 1)),
        limited(9, with_old(10, 1)),
        receiver(0, 0, 1),
        receiver(0, 0, 1 << 63),
        receiver(0, 1, 3),
        receiver(0, 63, 1 | 1 << 63),
        with_old(0, 1),
        with_old(63, 1 | 1 << 63),
        receiver(0, 1, 0),
        receiver(0, 100, u64::MAX - 1),
        with_old(100, 2),
        stray(last_iv_byte),
        stray(RawKey {
            next: 1,
            marks: low_word(1),
            ..zero
        }),
        stray(RawKey { next: 1, ..zero }),
        stray(RawKey {
            marks: low_word(1),
            ..zero
        }),
        stray(RawKey {
            marks: [0, 0, 0, 1 << 63],
            ..zero
        }),
        RawReceiver { count: 0, ..good },
    ]
}

fn bad_receivers_are_refused<V: Version>() {
    let badly_set = bad_settings().into_iter().map(|setting| RawReceiver {
        setting,
        ..receiver(0, 0, 0)
    });
    for state in bad_states().into_iter().chain(badly_set) {
        assert_eq!(answers::<V>(state), ([1; 5], true), "{state:?}");
    }
}

fn good_receivers_are_not<V: Version>() {
    for state in [
        limited(10, receiver(0, 10, 1)),
        limited(10, with_old(10, 1)),
        limited(1, receiver(1, 1, 1)),
        receiver(0, 1, 1),
        receiver(0, 63, u64::MAX >> 1),
        receiver(0, 64, u64::MAX),
        receiver(0, u64::MAX, u64::MAX),
        with_old(64, 1 | 1 << 63),
        stray(RawKey::default()),
        RawReceiver {
            count: u32::MAX,
            ..with_old(0, 0)
        },
        RawReceiver {
            count: u32::MAX,
            ..receiver(0, 0, 0)
        },
        receiver_with_old(1, RawKey::default(), RawKey::default()),
    ] {
        assert!(!answers::<V>(state).0.contains(&1), "{state:?}");
        assert_eq!(V::Receiver::from_raw(state).raw(), state);
    }
}

fn senders<V: Version>() {
    let limited = |limit, next| {
        let state = sender(0, next);
        let setting = Setting {
            limit,
            ..state.setting
        };
        RawSender { setting, ..state }
    };
    for (state, build, change) in [
        (RawSender::default(), 1, 1),
        (limited(9, 10), 1, 1),
        (limited(9, 9), 8, 0),
        (limited(9, 8), 0, 0),
        (sender(1, u64::MAX), 8, 0),
        (
            RawSender {
                count: u32::MAX,
                ..sender(1, 0)
            },
            0,
            19,
        ),
    ] {
        let mut builder = V::Sender::from_raw(state);
        assert_eq!(builder.build(&[], &[], &mut [0; 26]).answer, build);
        let mut changer = V::Sender::from_raw(state);
        assert_eq!(changer.change_key([7; 12]), change, "{state:?}");
    }
}

fn badly_set_senders<V: Version>() {
    for setting in bad_settings() {
        let state = RawSender {
            setting,
            ..sender(0, 0)
        };
        let mut sender = V::Sender::from_raw(state);
        assert_eq!(sender.build(&[], &[], &mut [0; 26]).answer, 1);
        assert_eq!(sender.change_key([7; 12]), 1);
        assert_eq!(sender.raw(), state);
    }
}

/// Opens both ends and gives their answers and states.
fn open<V: Version>(setting: Setting) -> ((u8, RawSender), (u8, RawReceiver)) {
    let (sent, sender) = V::Sender::open(setting, IV);
    let (received, receiver) = V::Receiver::open(setting, IV);
    ((sent, sender.raw()), (received, receiver.raw()))
}

fn open_refuses_and_gives_zeros<V: Version>() {
    for setting in bad_settings() {
        let zeros = ((2, RawSender::default()), (2, RawReceiver::default()));
        assert_eq!(open::<V>(setting), zeros);
    }
}

fn open_gives_a_new_state<V: Version>() {
    for setting in [Setting::new(0, 5, 1), Setting::new(1, 5, u64::MAX)] {
        let (count, next, iv) = (0, 0, IV);
        let sender = RawSender {
            setting,
            count,
            next,
            iv,
        };
        let current = key(0, 0);
        let receiver = RawReceiver {
            setting,
            current,
            ..RawReceiver::default()
        };
        assert_eq!(open::<V>(setting), ((0, sender), (0, receiver)));
    }
}

for_both!(
    bad_receivers_are_refused,
    good_receivers_are_not,
    senders,
    badly_set_senders,
    open_refuses_and_gives_zeros,
    open_gives_a_new_state,
);
