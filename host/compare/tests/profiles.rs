//! The bench cable's profile on real cipher text. In order every record is handed out, with the numbers 0, 1,
//! 2 and on; one that is lost stops all behind it, and one offer is settled once. Between ends of two
//! profiles nothing is promised.
mod channel;
mod mail;
mod sealing;

use channel::Channel;
use cipher::Suite;
use compare::Husk;
use husk::{CURRENT, MACS, OLD, PROFILE_BENCH, PROFILE_BUS};
use mail::{deliver, sent};
use reference::version::{Memory, ReceiverCalls, SenderCalls, Version};
use reference::{Refusal, Setting};
use sealing::{offer, receive, send_data, suites, Sent};

/// A mode's setting on the bench.
fn bench(mode: u8) -> Setting {
    Setting { profile: PROFILE_BENCH, ..Setting::new(mode, 0x1122_3344, u64::MAX) }
}

/// Both modes and layouts, with each MAC length.
fn settings() -> impl Iterator<Item = Setting> {
    let laid = [0, 1].into_iter().flat_map(|mode| [0, 1].map(|layout| Setting { layout, ..bench(mode) }));
    laid.flat_map(|setting| MACS.map(|mac| Setting { mac, ..setting }))
}

/// Each record is also delivered a second time, which is Mac and changes nothing; the gap count stays 0.
#[test]
fn in_order_every_record_is_handed_out() {
    for setting in settings() {
        for suite in suites(setting.mac) {
            Channel::<Husk>::open(suite, setting, setting).run(|_| 0);
            Channel::<Memory>::open(suite, setting, setting).run(|_| 0);
        }
    }
}

/// Delivers records one after the other, which all end so. The gap counts stay 0.
fn all_end<V: Version>(channel: &mut Channel<V>, records: &[Sent], slot: u8, answer: u8) {
    for record in records {
        assert_eq!(deliver(channel, record, slot), answer);
        assert_eq!((channel.receiver.gaps(CURRENT), channel.receiver.gaps(OLD).1), ((0, 0), 0));
    }
}

/// Record 10 is lost: no later one passes, however many come, until it arrives after all. Or the key is
/// changed: then the new key's pass, and the old key stands where it stood.
fn lose_one<V: Version>(setting: Setting) {
    let mac = Refusal::Mac.number();
    let mut channel = Channel::<V>::open(Suite::Aes256Gcm, setting, setting);
    let records = sent(&mut channel, 100);
    all_end(&mut channel, &records[..10], CURRENT, 0);
    all_end(&mut channel, &records[11..], CURRENT, mac);
    all_end(&mut channel, &records[10..50], CURRENT, 0);
    all_end(&mut channel, &records[..50], CURRENT, mac);
    all_end(&mut channel, &records[51..], CURRENT, mac);
    let iv = channel.keys.iv(1);
    assert_eq!((channel.sender.change_key(iv), channel.receiver.change_key(iv)), (0, 0));
    let fresh = sent(&mut channel, 20);
    all_end(&mut channel, &fresh, CURRENT, 0);
    all_end(&mut channel, &records[51..], OLD, mac);
    all_end(&mut channel, &records[50..], OLD, 0);
}

#[test]
fn after_a_lost_record_none_passes_till_it_comes_or_the_key_changes() {
    for setting in settings() {
        lose_one::<Husk>(setting);
        lose_one::<Memory>(setting);
    }
}

/// Settles one offer twice, of a sound record or of one whose data length passes its text, under this limit.
fn settle_twice<V: Version>(mode: u8, limit: u64, sound: bool) -> (u8, u8) {
    let setting = Setting { limit, ..bench(mode) };
    let Channel { keys, mut sender, mut receiver, .. } = Channel::<V>::open(Suite::Aes256Gcm, setting, setting);
    let longer = |text: &mut [u8]| {
        if !sound {
            text[..2].fill(0xff);
        }
    };
    let record = send_data(&mut sender, &keys, Vec::new(), &[], longer).unwrap();
    let (offered, yes, plain) = offer(&receiver, &keys, &record.bytes, CURRENT);
    assert!(yes, "the cipher takes it");
    let mut settle = || receiver.settle(&record.bytes, CURRENT, offered.count, offered.number, yes, &plain);
    let first = settle();
    let second = settle();
    assert_eq!((second.place, second.length), (0, 0));
    assert_eq!((receiver.raw().current.next, receiver.gaps(CURRENT)), (1, (0, 0)), "its number is marked, once");
    (first.answer, second.answer)
}

#[test]
fn one_offer_settled_twice_is_stale_and_at_the_limit_spent() {
    for (limit, again) in [(u64::MAX, Refusal::Stale), (2, Refusal::Stale), (1, Refusal::Spent)] {
        for (mode, sound) in [(husk::AUTHENTICATED, true), (husk::ENCRYPTED, true), (husk::ENCRYPTED, false)] {
            let first = if sound { 0 } else { Refusal::Inner.number() };
            assert_eq!(settle_twice::<Husk>(mode, limit, sound), (first, again.number()));
            assert_eq!(settle_twice::<Memory>(mode, limit, sound), (first, again.number()));
        }
    }
}

/// Sends records of twelve bytes that begin with these two between ends of two profiles. Answers what was
/// handed out; all else is Length or Mac, or Repeat behind it.
fn between<V: Version>(mode: u8, from: u8, start: [u8; 2]) -> Vec<(u64, Vec<u8>)> {
    let (from, to) = (Setting { profile: from, ..bench(mode) }, Setting { profile: 1 - from, ..bench(mode) });
    let Channel { keys, mut sender, mut receiver, .. } = Channel::<V>::open(Suite::Aes256Gcm, from, to);
    let mut handed = Vec::new();
    for _ in 0..100 {
        let app = [&start[..], b"ten bytes."].concat();
        let record = send_data(&mut sender, &keys, app, &[], |_| {}).unwrap();
        let (answer, _, number, data) = receive::<V>(&mut receiver, &keys, &record.bytes, CURRENT);
        if answer == 0 {
            handed.push((number, data));
        } else {
            let refusals = if handed.is_empty() { [Refusal::Length, Refusal::Mac] } else { [Refusal::Repeat; 2] };
            assert!(refusals.map(Refusal::number).contains(&answer), "{answer}");
        }
    }
    handed
}

/// Length and number change places with data: in mode 0 nothing tells them apart where the bench's Length is
/// the record's own number and its data begins with the Length that the bus's profile has for it.
#[test]
fn with_two_profiles_nothing_is_handed_out_but_in_mode_0_what_happens_to_fit() {
    for mode in [husk::AUTHENTICATED, husk::ENCRYPTED] {
        for (from, start) in [(PROFILE_BENCH, [0, 0]), (PROFILE_BUS, [0, 0]), (PROFILE_BUS, [26, 0])] {
            assert_eq!(between::<Husk>(mode, from, start), []);
            assert_eq!(between::<Memory>(mode, from, start), []);
        }
    }
    let cut = [(28, b"ten bytes.".to_vec())];
    assert_eq!(between::<Husk>(husk::AUTHENTICATED, PROFILE_BENCH, [26, 0]), cut);
    assert_eq!(between::<Memory>(husk::AUTHENTICATED, PROFILE_BENCH, [26, 0]), cut);
    assert_eq!(between::<Husk>(husk::ENCRYPTED, PROFILE_BENCH, [26, 0]), []);
}
