//! What several tests need: simple states and records, and a test per version.
#![allow(dead_code)] // no test file uses all of it

pub mod toy;

use reference::version::{ReceiverCalls, SenderCalls, Version};
use reference::{Iv, Marks, RawKey, RawReceiver, RawSender, Setting};

pub const SESSION: u32 = 0x1122_3344;
pub const IV: Iv = [0, 1, 2, 3, 4, 5, 6, 7, 8, 9, 10, 11];

/// Makes a test of each function for both versions.
#[macro_export]
macro_rules! for_both {
    ($($test:ident),* $(,)?) => {
        mod memory_version {
            $(#[test] fn $test() { super::$test::<reference::version::Memory>(); })*
        }
        mod fast_version {
            $(#[test] fn $test() { super::$test::<reference::version::Fast>(); })*
        }
    };
}

/// The setting of the worked cases, with the highest limit.
pub fn setting(mode: u8) -> Setting {
    Setting::new(mode, SESSION, u64::MAX)
}

/// Settings in both modes, with each choice that Open leaves at least once.
pub fn good_settings() -> Vec<Setting> {
    let base = (0..2).map(setting);
    base.flat_map(|base| {
        [
            base,
            Setting { layout: 1, ..base },
            Setting { mac: 8, ..base },
            Setting { mac: 12, ..base },
            Setting { profile: 1, ..base },
            Setting { width: 128, ..base },
            Setting { width: 192, ..base },
            Setting { width: 256, ..base },
        ]
    })
    .collect()
}

/// A setting for each way in which Open refuses one.
pub fn bad_settings() -> Vec<Setting> {
    let good = setting(0);
    vec![
        setting(2),
        setting(255),
        Setting { layout: 2, ..good },
        Setting {
            layout: 255,
            ..good
        },
        Setting { mac: 0, ..good },
        Setting { mac: 7, ..good },
        Setting { mac: 10, ..good },
        Setting { mac: 20, ..good },
        Setting { mac: 255, ..good },
        Setting { profile: 2, ..good },
        Setting {
            profile: 255,
            ..good
        },
        Setting { width: 0, ..good },
        Setting { width: 63, ..good },
        Setting { width: 65, ..good },
        Setting { width: 320, ..good },
        Setting { limit: 0, ..good },
        Setting {
            limit: 0,
            ..setting(1)
        },
    ]
}

/// Both ends with the same setting, opened.
pub fn opened<V: Version>(setting: Setting) -> (V::Sender, V::Receiver) {
    let (sent, sender) = V::Sender::open(setting, IV);
    let (received, receiver) = V::Receiver::open(setting, IV);
    assert_eq!((sent, received), (0, 0));
    (sender, receiver)
}

/// A key with E and the lowest word of its window.
pub fn key(next: u64, marks: u64) -> RawKey {
    RawKey {
        iv: IV,
        next,
        marks: low_word(marks),
    }
}

/// A window with only its lowest word used.
pub fn low_word(marks: u64) -> Marks {
    [marks, 0, 0, 0]
}

/// A sender about to use this number.
pub fn sender(mode: u8, next: u64) -> RawSender {
    RawSender {
        setting: setting(mode),
        count: 0,
        next,
        iv: IV,
    }
}

/// A receiver without an old key.
pub fn receiver(mode: u8, next: u64, marks: u64) -> RawReceiver {
    RawReceiver {
        setting: setting(mode),
        current: key(next, marks),
        ..RawReceiver::default()
    }
}

/// A receiver that holds an old key.
pub fn receiver_with_old(mode: u8, current: RawKey, old: RawKey) -> RawReceiver {
    RawReceiver {
        setting: setting(mode),
        count: 1,
        current,
        held: true,
        old,
    }
}

/// A record with zeros behind its header.
pub fn record(low: u16, length: u16) -> Vec<u8> {
    let mut rec = SESSION.to_le_bytes().to_vec();
    rec.extend(low.to_le_bytes());
    rec.extend(length.to_le_bytes());
    rec.resize(8 + usize::from(length), 0);
    rec
}

/// A record of profile 1 with zeros behind its header.
pub fn bench_record(session: u32, length: u16) -> Vec<u8> {
    let mut rec = session.to_le_bytes().to_vec();
    rec.extend(length.to_le_bytes());
    rec.resize(6 + usize::from(length), 0);
    rec
}
