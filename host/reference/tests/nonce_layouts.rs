//! The two nonce layouts, alone and in Build and Offer.

mod common;

use std::collections::BTreeSet;

use common::{opened, record, setting, IV};
use reference::random::{edge, Rng};
use reference::version::{ReceiverCalls, SenderCalls, Version};
use reference::Setting;

/// Number 0x0102 in each layout.
const WORKED: [[u8; 12]; 2] = [
    [2, 0, 2, 3, 4, 5, 6, 7, 8, 9, 0x0A, 0x0B],
    [0, 1, 2, 3, 4, 5, 6, 7, 8, 9, 0x0B, 0x09],
];

fn worked_nonces<V: Version>() {
    for (layout, nonce) in (0..).zip(WORKED) {
        assert_eq!(V::nonce(layout, &IV, 0x0102), nonce);
    }
    let highest = [255; 8];
    assert_eq!(V::nonce(0, &[0; 12], u64::MAX)[..8], highest);
    assert_eq!(V::nonce(0, &[0; 12], u64::MAX)[8..], [0; 4]);
    assert_eq!(V::nonce(1, &[0; 12], u64::MAX)[..4], [0; 4]);
    assert_eq!(V::nonce(1, &[0; 12], u64::MAX)[4..], highest);
}

fn every_byte_of_the_number<V: Version>() {
    let number = 0x0102_0304_0506_0708;
    let ours = [8, 7, 6, 5, 4, 3, 2, 1, 0, 0, 0, 0];
    let theirs = [0, 0, 0, 0, 1, 2, 3, 4, 5, 6, 7, 8];
    assert_eq!(V::nonce(0, &[0; 12], number), ours);
    assert_eq!(V::nonce(1, &[0; 12], number), theirs);
}

fn number_0_is_the_iv_in_both<V: Version>() {
    for layout in 0..2 {
        assert_eq!(V::nonce(layout, &IV, 0), IV);
    }
}

fn other_numbers_have_other_nonces<V: Version>() {
    let mut rng = Rng::new(81);
    let numbers: BTreeSet<u64> = (0..20_000).map(|_| edge(&mut rng)).collect();
    for layout in 0..2 {
        let nonce = |&number| V::nonce(layout, &IV, number);
        let nonces: BTreeSet<_> = numbers.iter().map(nonce).collect();
        assert_eq!(nonces.len(), numbers.len());
    }
}

/// Both ends set alike give number 0x0102 the worked nonce.
fn both_ends_use_the_layout<V: Version>() {
    for (layout, nonce) in (0..).zip(WORKED) {
        let (mut sender, receiver) = opened::<V>(Setting {
            layout,
            ..setting(0)
        });
        let mut out = [0; 24];
        for number in 0..0x0102 {
            assert_eq!(sender.build(&[], &[], &mut out).number, number);
        }
        let built = sender.build(&[], &[], &mut out);
        assert_eq!((built.number, built.nonce), (0x0102, nonce));
        let offered = receiver.offer(&record(0x0102, 16), 0);
        assert_eq!((offered.number, offered.nonce), (0x0102, nonce));
    }
}

/// The layout stays with the channel over a key change, for the old key too.
fn both_keys_use_the_layout<V: Version>() {
    for (layout, nonce) in (0..).zip(WORKED) {
        let (_, mut receiver) = opened::<V>(Setting {
            layout,
            ..setting(0)
        });
        assert_eq!(receiver.change_key([0; 12]), 0);
        let rec = record(0x0102, 16);
        assert_eq!(receiver.offer(&rec, 1).nonce, nonce);
        let new = V::nonce(layout, &[0; 12], 0x0102);
        assert_eq!(receiver.offer(&rec, 0).nonce, new);
    }
}

for_both!(
    worked_nonces,
    every_byte_of_the_number,
    number_0_is_the_iv_in_both,
    other_numbers_have_other_nonces,
    both_ends_use_the_layout,
    both_keys_use_the_layout,
);
