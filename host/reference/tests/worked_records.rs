//! The worked records of page 01, byte by byte, and the sizes.

mod common;

use common::{receiver, record, sender, SESSION};
use reference::version::{ReceiverCalls, SenderCalls, Version};
use reference::{Built, Offered, Settled};

const DATA: [u8; 3] = [0xA0, 0xA1, 0xA2];
/// What a buffer holds before Build, to see what was not written.
const FILL: u8 = 0x5C;
/// Number 5 XORed into the first byte of the IV.
const NONCE_5: [u8; 12] = [5, 1, 2, 3, 4, 5, 6, 7, 8, 9, 10, 11];

fn built(assoc: u64, text: u64, total: u64) -> Built {
    Built {
        answer: 0,
        number: 5,
        nonce: NONCE_5,
        assoc,
        text,
        total,
    }
}

fn mode_0_record<V: Version>() {
    let mut sender = V::Sender::from_raw(sender(0, 5));
    let mut out = [FILL; 40];
    assert_eq!(sender.build(&DATA, &[], &mut out), built(11, 11, 27));
    let bytes = [0x44, 0x33, 0x22, 0x11, 0x05, 0, 0x13, 0, 0xA0, 0xA1, 0xA2];
    assert_eq!(out[..11], bytes);
    assert!(out[11..].iter().all(|&byte| byte == FILL));
    assert_eq!(sender.raw(), common::sender(0, 6));
}

fn mode_1_record<V: Version>() {
    let mut sender = V::Sender::from_raw(sender(1, 5));
    let mut out = [FILL; 40];
    assert_eq!(sender.build(&DATA, &[0xFF], &mut out), built(8, 14, 30));
    let bytes = [
        0x44, 0x33, 0x22, 0x11, 0x05, 0, 0x16, 0, 0x03, 0, 0xA0, 0xA1, 0xA2, 0xFF,
    ];
    assert_eq!(out[..14], bytes);
    assert!(out[14..].iter().all(|&byte| byte == FILL));
    assert_eq!(sender.raw(), common::sender(1, 6));
}

fn mode_0_is_read_back<V: Version>() {
    let mut rec = [FILL; 27];
    V::Sender::from_raw(sender(0, 5)).build(&DATA, &[], &mut rec);
    let mut receiver = V::Receiver::from_raw(receiver(0, 0, 0));
    let offered = Offered {
        answer: 0,
        count: 0,
        number: 5,
        nonce: NONCE_5,
        assoc: 11,
        text: 11,
    };
    assert_eq!(receiver.offer(&rec, 0), offered);
    let settled = receiver.settle(&rec, 0, 0, 5, true, &[]);
    let (place, length) = (8, 3);
    assert_eq!(
        settled,
        Settled {
            answer: 0,
            place,
            length
        }
    );
    let part = V::view(0, place, length, &rec, &[]);
    assert_eq!(part, DATA);
    assert!(std::ptr::eq(part, &rec[8..11]), "a part of the record");
    assert_eq!(receiver.raw(), common::receiver(0, 6, 1));
}

fn mode_1_is_read_back<V: Version>() {
    let mut rec = [FILL; 30];
    V::Sender::from_raw(sender(1, 5)).build(&DATA, &[0xFF], &mut rec);
    let plain = rec[8..14].to_vec();
    let mut receiver = V::Receiver::from_raw(receiver(1, 0, 0));
    let offered = receiver.offer(&rec, 0);
    assert_eq!((offered.assoc, offered.text), (8, 14));
    let settled = receiver.settle(&rec, 0, 0, 5, true, &plain);
    let (place, length) = (2, 3);
    assert_eq!(
        settled,
        Settled {
            answer: 0,
            place,
            length
        }
    );
    let part = V::view(1, place, length, &rec, &plain);
    assert_eq!(part, DATA);
    assert!(std::ptr::eq(part, &plain[2..5]), "a part of the plaintext");
}

/// Builds with P and R bytes and gives the answer and the total.
fn build_of<V: Version>(mode: u8, data: usize, random: usize) -> (u8, u64) {
    let mut out = vec![FILL; 8 + 65_535];
    let (data, random) = (vec![1; data], vec![2; random]);
    let built = V::Sender::from_raw(sender(mode, 0)).build(&data, &random, &mut out);
    let mac = &out[out.len() - 16..];
    assert!(mac.iter().all(|&byte| byte == FILL));
    assert!(built.answer == 0 || out.iter().all(|&byte| byte == FILL));
    (built.answer, built.total)
}

fn sizes<V: Version>() {
    assert_eq!(build_of::<V>(0, 65_519, 0), (0, 65_543));
    assert_eq!(build_of::<V>(0, 65_520, 0), (16, 0));
    assert_eq!(build_of::<V>(1, 65_517, 0), (0, 65_543));
    assert_eq!(build_of::<V>(1, 30_000, 35_517), (0, 65_543));
    assert_eq!(build_of::<V>(1, 0, 65_517), (0, 65_543));
    assert_eq!(build_of::<V>(1, 65_518, 0), (16, 0));
    assert_eq!(build_of::<V>(1, 1, 65_517), (16, 0));
    assert_eq!(build_of::<V>(0, 0, 0), (0, 24));
    assert_eq!(build_of::<V>(1, 0, 0), (0, 26));
}

fn the_largest_record_is_read<V: Version>() {
    let rec = record(0, 65_535);
    for (mode, place, length) in [(0, 8, 65_519), (1, 2, 65_517)] {
        let mut plain = vec![7; 65_519 * usize::from(mode)];
        if mode == 1 {
            plain[..2].copy_from_slice(&65_517_u16.to_le_bytes());
        }
        let mut receiver = V::Receiver::from_raw(receiver(mode, 0, 0));
        let settled = receiver.settle(&rec, 0, 0, 0, true, &plain);
        assert_eq!(
            settled,
            Settled {
                answer: 0,
                place,
                length
            }
        );
        let part = V::view(mode, place, length, &rec, &plain);
        assert_eq!(part.len() as u64, length);
    }
}

fn length_18<V: Version>() {
    let rec = record(0, 18);
    let mut empty = V::Receiver::from_raw(receiver(1, 0, 0));
    let settled = empty.settle(&rec, 0, 0, 0, true, &[0, 0]);
    assert_eq!((settled.answer, settled.place, settled.length), (0, 2, 0));
    assert!(V::view(1, 2, 0, &rec, &[0, 0]).is_empty());

    let mut inner = V::Receiver::from_raw(receiver(1, 0, 0));
    let settled = inner.settle(&rec, 0, 0, 0, true, &[1, 0]);
    assert_eq!((settled.answer, settled.place, settled.length), (14, 0, 0));
    assert_eq!(inner.raw(), receiver(1, 1, 1), "the number is marked");
    assert_eq!(inner.settle(&rec, 0, 0, 0, true, &[1, 0]).answer, 10);
    assert_eq!(inner.offer(&rec, 0).answer, 10);
}

fn one_byte_more_or_fewer<V: Version>() {
    let receiver = V::Receiver::from_raw(receiver(0, 0, 0));
    let mut rec = record(0, 20);
    assert_eq!(receiver.offer(&rec, 0).answer, 0);
    rec.push(0);
    assert_eq!(receiver.offer(&rec, 0).answer, 6);
    rec.truncate(27);
    assert_eq!(receiver.offer(&rec, 0).answer, 6);
    assert_eq!(rec[..4], SESSION.to_le_bytes());
}

for_both!(
    mode_0_record,
    mode_1_record,
    mode_0_is_read_back,
    mode_1_is_read_back,
    sizes,
    the_largest_record_is_read,
    length_18,
    one_byte_more_or_fewer,
);
