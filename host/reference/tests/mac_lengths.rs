//! MACs of 8, 12 and 16 bytes: every size rule at its line, in both modes.

mod common;

use common::{opened, record, setting};
use reference::version::{ReceiverCalls, SenderCalls, Version};
use reference::Setting;

/// What a buffer holds before Build, to see what was not written.
const FILL: u8 = 0x5C;
/// The largest record: a header and the largest Length.
const LARGEST: u64 = 8 + 65_535;

/// The setting of the worked cases with a MAC of so many bytes.
fn with_mac(mode: u8, mac: u8) -> Setting {
    Setting {
        mac,
        ..setting(mode)
    }
}

/// Every MAC length, in each mode.
fn all() -> impl Iterator<Item = (u8, u8)> {
    (0..2).flat_map(|mode| [8, 12, 16].map(|mac| (mode, mac)))
}

/// The answer and total of a Build of P and R bytes in so much room.
fn build_of<V: Version>(setting: Setting, data: usize, random: usize, room: u64) -> (u8, u64) {
    let (mut sender, _) = opened::<V>(setting);
    let mut out = vec![FILL; room as usize];
    let (data, random) = (vec![1; data], vec![2; random]);
    let built = sender.build(&data, &random, &mut out);
    let unwritten = if built.answer == 0 { built.text } else { 0 };
    let after = &out[unwritten as usize..];
    assert!(after.iter().all(|&byte| byte == FILL));
    (built.answer, built.total)
}

fn a_worked_record_with_8<V: Version>() {
    let data = [0xA0, 0xA1, 0xA2];
    let mut out = [FILL; 24];
    let (mut sender, _) = opened::<V>(with_mac(0, 8));
    let built = sender.build(&data, &[], &mut out);
    assert_eq!((built.assoc, built.text, built.total), (11, 11, 19));
    assert_eq!(
        out[..12],
        [0x44, 0x33, 0x22, 0x11, 0, 0, 0x0B, 0, 0xA0, 0xA1, 0xA2, FILL]
    );

    let (mut sender, _) = opened::<V>(with_mac(1, 8));
    let built = sender.build(&data, &[0xFF], &mut out);
    assert_eq!((built.assoc, built.text, built.total), (8, 14, 22));
    assert_eq!(
        out[4..15],
        [0, 0, 0x0E, 0, 3, 0, 0xA0, 0xA1, 0xA2, 0xFF, FILL]
    );
}

fn the_largest_data_and_one_more<V: Version>() {
    for mac in [8, 12, 16] {
        let built = |mode, data, random| {
            let setting = with_mac(mode, mac);
            build_of::<V>(setting, data, random, LARGEST)
        };
        let (alone, padded) = (65_535 - usize::from(mac), 65_533 - usize::from(mac));
        assert_eq!(built(0, alone, 0), (0, LARGEST));
        assert_eq!(built(0, alone + 1, 0), (16, 0));
        assert_eq!(built(1, padded, 0), (0, LARGEST));
        assert_eq!(built(1, 0, padded), (0, LARGEST));
        assert_eq!(built(1, padded - 9, 9), (0, LARGEST));
        assert_eq!(built(1, padded + 1, 0), (16, 0));
        assert_eq!(built(1, padded, 1), (16, 0));
        assert_eq!(built(1, 0, padded + 1), (16, 0));
    }
}

fn room_for_the_total_and_one_less<V: Version>() {
    for (mode, mac) in all() {
        let total = 8 + 2 * u64::from(mode) + 5 + u64::from(mac);
        let setting = with_mac(mode, mac);
        assert_eq!(build_of::<V>(setting, 5, 0, total), (0, total));
        assert_eq!(build_of::<V>(setting, 5, 0, total - 1), (17, 0));
    }
}

fn small_at_its_edge<V: Version>() {
    for (mode, mac) in all() {
        let (_, receiver) = opened::<V>(with_mac(mode, mac));
        let least = u16::from(mac) + 2 * u16::from(mode);
        for length in 0..least {
            assert_eq!(receiver.offer(&record(0, length), 0).answer, 7);
        }
        let offered = receiver.offer(&record(0, least), 0);
        assert_eq!(offered.answer, 0);
        let end = 8 + 2 * u64::from(mode);
        assert_eq!((offered.assoc, offered.text), (8, end));
    }
}

fn plain_at_its_edge<V: Version>() {
    for mac in [8, 12, 16] {
        let rec = record(0, 40);
        let right = 40 - usize::from(mac);
        for (mode, len, answer) in [
            (0, 0, 0),
            (0, 1, 12),
            (0, right, 12),
            (1, right, 0),
            (1, right - 1, 12),
            (1, right + 1, 12),
            (1, 0, 12),
        ] {
            let (_, mut receiver) = opened::<V>(with_mac(mode, mac));
            let settled = receiver.settle(&rec, 0, 0, 0, true, &vec![0; len]);
            assert_eq!(settled.answer, answer, "{mode} {mac} {len}");
        }
    }
}

fn inner_at_its_edge<V: Version>() {
    for mac in [8, 12, 16] {
        let rec = record(0, 40);
        let most = 38 - u16::from(mac);
        for (data, answer, length) in [(most, 0, most), (most + 1, 14, 0)] {
            let (_, mut receiver) = opened::<V>(with_mac(1, mac));
            let mut plain = vec![0; usize::from(most) + 2];
            plain[..2].copy_from_slice(&data.to_le_bytes());
            let settled = receiver.settle(&rec, 0, 0, 0, true, &plain);
            let handed = (settled.answer, settled.length);
            assert_eq!(handed, (answer, u64::from(length)));
            assert_eq!(receiver.raw().current.next, 1, "marked either way");
        }
    }
}

fn data_in_mode_0<V: Version>() {
    for mac in [8, 12, 16] {
        let (_, mut receiver) = opened::<V>(with_mac(0, mac));
        let settled = receiver.settle(&record(0, 40), 0, 0, 0, true, &[]);
        let length = 40 - u64::from(mac);
        assert_eq!((settled.place, settled.length), (8, length));
    }
}

fn no_other_length_is_taken<V: Version>() {
    for mac in (0..=255).filter(|mac| ![8, 12, 16].contains(mac)) {
        let setting = with_mac(0, mac);
        assert_eq!(V::Sender::open(setting, [0; 12]).0, 2);
        assert_eq!(V::Receiver::open(setting, [0; 12]).0, 2);
    }
}

for_both!(
    a_worked_record_with_8,
    the_largest_data_and_one_more,
    room_for_the_total_and_one_less,
    small_at_its_edge,
    plain_at_its_edge,
    inner_at_its_edge,
    data_in_mode_0,
    no_other_length_is_taken,
);
