//! Profile 1, for the bench cable: a 6-byte header without a partial number.

mod common;

use common::{bench_record, key, opened, receiver, sender, setting, IV, SESSION};
use reference::random::{good_setting, Mailbox, Rng};
use reference::version::{ReceiverCalls, SenderCalls, Version};
use reference::{compare, Kind, RawReceiver, RawSender, Setting, Settled};

const DATA: [u8; 3] = [0xA0, 0xA1, 0xA2];
/// What a buffer holds before Build, to see what was not written.
const FILL: u8 = 0x5C;

fn bench(mode: u8) -> Setting {
    Setting {
        profile: 1,
        ..setting(mode)
    }
}

/// A sender about to use this number.
fn bench_sender<V: Version>(mode: u8, next: u64) -> V::Sender {
    let setting = bench(mode);
    V::Sender::from_raw(RawSender {
        setting,
        ..sender(mode, next)
    })
}

/// A receiver with this limit and E, and only E - 1 marked.
fn bench_receiver<V: Version>(mode: u8, limit: u64, next: u64) -> V::Receiver {
    let setting = Setting {
        limit,
        ..bench(mode)
    };
    let state = receiver(mode, next, u64::from(next > 0));
    V::Receiver::from_raw(RawReceiver { setting, ..state })
}

fn rec(length: u16) -> Vec<u8> {
    bench_record(SESSION, length)
}

fn settled(place: u64, length: u64) -> Settled {
    Settled {
        answer: 0,
        place,
        length,
    }
}

fn a_worked_record_in_mode_0<V: Version>() {
    let mut out = [FILL; 25];
    let built = bench_sender::<V>(0, 5).build(&DATA, &[], &mut out);
    assert_eq!((built.number, built.nonce[0]), (5, IV[0] ^ 5));
    assert_eq!((built.assoc, built.text, built.total), (9, 9, 25));
    let bytes = [0x44, 0x33, 0x22, 0x11, 0x13, 0, 0xA0, 0xA1, 0xA2, FILL];
    assert_eq!(out[..10], bytes);

    let mut receiver = bench_receiver::<V>(0, u64::MAX, 5);
    let offered = receiver.offer(&out, 0);
    assert_eq!((offered.number, offered.nonce), (5, built.nonce));
    assert_eq!((offered.assoc, offered.text), (9, 9));
    let handed = receiver.settle(&out, 0, 0, 5, true, &[]);
    assert_eq!(handed, settled(6, 3));
    assert_eq!(V::view(0, 6, 3, &out, &[]), DATA);
}

fn a_worked_record_in_mode_1<V: Version>() {
    let mut out = [FILL; 28];
    let built = bench_sender::<V>(1, 5).build(&DATA, &[0xFF], &mut out);
    assert_eq!((built.assoc, built.text, built.total), (6, 12, 28));
    let bytes = [
        0x44, 0x33, 0x22, 0x11, 0x16, 0, 3, 0, 0xA0, 0xA1, 0xA2, 0xFF, FILL,
    ];
    assert_eq!(out[..13], bytes);

    let plain = &out[6..12];
    let mut receiver = bench_receiver::<V>(1, u64::MAX, 5);
    let offered = receiver.offer(&out, 0);
    assert_eq!((offered.number, offered.nonce), (5, built.nonce));
    assert_eq!((offered.assoc, offered.text), (6, 12));
    let handed = receiver.settle(&out, 0, 0, 5, true, plain);
    assert_eq!(handed, settled(2, 3));
    assert_eq!(V::view(1, 2, 3, &out, plain), DATA);
}

fn sizes_at_their_edges<V: Version>() {
    for (mode, most) in [(0, 65_519), (1, 65_517)] {
        let mut out = vec![FILL; 6 + 65_535];
        let data = vec![1; most + 1];
        let build = |len: usize, out: &mut [u8]| {
            let built = bench_sender::<V>(mode, 0).build(&data[..len], &[], out);
            (built.answer, built.total)
        };
        assert_eq!(build(most + 1, &mut out), (16, 0));
        assert_eq!(build(most, &mut out[1..]), (17, 0));
        assert_eq!(build(most, &mut out), (0, 65_541));
    }
}

fn the_number_is_always_e<V: Version>() {
    for next in [0, 1, 64, 100, 32_768, 65_535, 65_536, u64::MAX - 1] {
        // At offset 4 a number of profile 0 would be the Length here.
        for length in [16, 18, 100, 65_535] {
            let receiver = bench_receiver::<V>(0, u64::MAX, next);
            let offered = receiver.offer(&rec(length), 0);
            assert_eq!((offered.answer, offered.number), (0, next));
        }
    }
}

fn short_length_and_small<V: Version>() {
    let long = rec(18);
    for (mode, rec, answer) in [
        (0, &long[..5], 4),
        (0, &long[..6], 6),
        (0, &long[..23], 6),
        (0, &[&long[..], &[0]].concat(), 6),
        (0, &rec(0), 7),
        (0, &rec(15), 7),
        (0, &rec(16), 0),
        (1, &rec(17), 7),
        (1, &long, 0),
    ] {
        let receiver = bench_receiver::<V>(mode, u64::MAX, 0);
        assert_eq!(receiver.offer(rec, 0).answer, answer);
    }
    let other = bench_record(SESSION ^ 1, 18);
    let receiver = bench_receiver::<V>(0, u64::MAX, 0);
    assert_eq!(receiver.offer(&other[..5], 0).answer, 4);
    assert_eq!(receiver.offer(&other[..6], 0).answer, 5);
}

/// Settling one offer twice; the cipher's yes or no does not matter then.
fn twice_is_stale_and_at_the_limit_spent<V: Version>() {
    for (limit, again) in [(9, 11), (8, 8)] {
        for data in [0, 1] {
            let mut receiver = bench_receiver::<V>(1, limit, 7);
            let (rec, plain) = (rec(18), [data, 0]);
            let offered = receiver.offer(&rec, 0);
            assert_eq!((offered.answer, offered.number), (0, 7));
            let mut settle = |passed| receiver.settle(&rec, 0, 0, 7, passed, &plain).answer;
            // Data length 1 does not fit, so the number is marked by Inner.
            assert_eq!(settle(true), if data == 0 { 0 } else { 14 });
            assert_eq!(settle(true), again);
            assert_eq!(settle(false), again);
            assert_eq!(receiver.raw().current, key(8, 3));
        }
    }
}

fn each_key_counts_for_itself<V: Version>() {
    let (_, mut receiver) = opened::<V>(bench(0));
    let rec = rec(16);
    for number in 0..3 {
        assert_eq!(receiver.settle(&rec, 0, 0, number, true, &[]).answer, 0);
    }
    assert_eq!(receiver.change_key([7; 12]), 0);
    let numbers = [0, 1].map(|slot| receiver.offer(&rec, slot).number);
    assert_eq!(numbers, [0, 3]);
    assert_eq!(receiver.settle(&rec, 1, 0, 3, true, &[]).answer, 0);
    assert_eq!(receiver.settle(&rec, 1, 0, 3, true, &[]).answer, 11);
    let numbers = [0, 1].map(|slot| receiver.offer(&rec, slot).number);
    assert_eq!(numbers, [0, 4]);
}

/// From Open on the marked numbers are 0, 1, 2 and on, and neither Old nor
/// Repeat is ever answered.
fn no_gaps_in_any_run<V: Version>() {
    let mut rng = Rng::new(82);
    let mut marked = 0;
    for _ in 0..200 {
        let setting = Setting {
            profile: 1,
            ..good_setting(&mut rng)
        };
        let (_, mut receiver) = opened::<V>(setting);
        let mut mailbox = Mailbox::new(&mut rng);
        for _ in 0..500 {
            let call = mailbox.next_call(&mut rng, &receiver.raw());
            let outcome = compare::apply_receiver(&mut receiver, &call);
            let answer = outcome.answer.number();
            assert!(answer != 9 && answer != 10, "{call:?}");
            let held = receiver.raw().held;
            assert_eq!(receiver.gaps(0), (0, 0));
            assert_eq!(receiver.gaps(1), (if held { 0 } else { 3 }, 0));
            marked += u64::from(call.kind() == Kind::Settle && answer == 0);
        }
    }
    assert!(marked > 10_000, "{marked}");
}

for_both!(
    a_worked_record_in_mode_0,
    a_worked_record_in_mode_1,
    sizes_at_their_edges,
    the_number_is_always_e,
    short_length_and_small,
    twice_is_stale_and_at_the_limit_spent,
    each_key_counts_for_itself,
    no_gaps_in_any_run,
);
