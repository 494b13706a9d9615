//! MACs of each length. Real cipher text between ends of one length is handed out, but not with a damaged
//! MAC; between ends of two lengths nothing is. And the largest data that a length leaves room for.
mod channel;
mod sealing;

use channel::Channel;
use cipher::Suite;
use compare::Husk;
use husk::MACS;
use reference::layout::Record;
use reference::version::{Memory, ReceiverCalls, SenderCalls, Version};
use reference::{Built, Refusal, Setting};
use sealing::{receive, send, suites, Sent};

/// Both modes.
fn modes() -> [Setting; 2] {
    [husk::AUTHENTICATED, husk::ENCRYPTED].map(|mode| Setting::new(mode, 0x1122_3344, u64::MAX))
}

/// Both modes with each length, in both profiles.
fn settings() -> impl Iterator<Item = Setting> {
    let coded = modes().into_iter().flat_map(|setting| MACS.map(|mac| Setting { mac, ..setting }));
    coded.flat_map(|setting| [setting, Setting { profile: husk::PROFILE_BENCH, ..setting }])
}

/// Length of a record with no data and no random bytes.
fn least(setting: Setting) -> usize {
    let inner = if setting.mode == 0 { 0 } else { Record::DATA_LENGTH };
    usize::from(setting.mac) + inner
}

#[test]
fn with_one_length_every_record_is_handed_out() {
    for setting in settings() {
        for suite in suites(setting.mac) {
            Channel::<Husk>::open(suite, setting, setting).run(|_| 0);
            Channel::<Memory>::open(suite, setting, setting).run(|_| 0);
        }
    }
}

/// A record too small for the receiver's MAC is refused for that; the cipher refuses the others.
#[test]
fn with_two_lengths_nothing_is_handed_out_and_nothing_marked() {
    for from in settings() {
        for to in MACS.map(|mac| Setting { mac, ..from }).into_iter().filter(|&to| to != from) {
            let small = |record: &Sent| record.bytes.len() - Record::header(to.profile) < least(to);
            let refusal = |record: &Sent| if small(record) { Refusal::Small } else { Refusal::Mac };
            // The one cipher that has more lengths than one.
            let suite = Suite::Aes256Gcm;
            let ours = Channel::<Husk>::open(suite, from, to).run(|record| refusal(record).number());
            let theirs = Channel::<Memory>::open(suite, from, to).run(|record| refusal(record).number());
            assert_eq!(ours, theirs);
            assert!(ours.contains(&Refusal::Mac.number()));
            assert_eq!(ours.contains(&Refusal::Small.number()), from.mac < to.mac);
        }
    }
}

/// Changes each bit of a record's MAC in turn, and then delivers it unchanged.
fn damage<V: Version>(Channel { keys, mut sender, mut receiver, mut rng }: Channel<V>) {
    let record = send(&mut sender, &keys, &mut rng).unwrap();
    let before = receiver.raw();
    let mut damaged = record.bytes.clone();
    let end = damaged.len();
    for place in end - usize::from(before.setting.mac)..end {
        for bit in 0..8 {
            damaged[place] ^= 1 << bit;
            let answer = receive::<V>(&mut receiver, &keys, &damaged, husk::CURRENT);
            assert_eq!(answer, (Refusal::Mac.number(), 0, 0, Vec::new()));
            damaged[place] ^= 1 << bit;
        }
    }
    assert_eq!(receiver.raw(), before, "nothing is marked");
    let answer = receive::<V>(&mut receiver, &keys, &record.bytes, husk::CURRENT);
    assert_eq!(answer, (0, 0, 0, record.app));
}

#[test]
fn a_damaged_mac_is_refused_in_each_bit() {
    for setting in settings() {
        for suite in suites(setting.mac) {
            damage::<Husk>(Channel::open(suite, setting, setting));
            damage::<Memory>(Channel::open(suite, setting, setting));
        }
    }
}

/// What a version builds of so many bytes of data and random bytes, in the room for the largest record.
fn build<V: Version>(setting: Setting, data: usize, random: usize) -> (Built, Vec<u8>) {
    let mut out = vec![0x5c; Record::header(setting.profile) + Record::LARGEST];
    let (answer, mut sender) = V::Sender::open(setting, [1; 12]);
    assert_eq!(answer, 0);
    let built = sender.build(&vec![2; data], &vec![3; random], &mut out);
    (built, out)
}

/// The answer and the length of what both versions build alike.
fn built(setting: Setting, data: usize, random: usize) -> (u8, u64) {
    let (ours, theirs) = (build::<Husk>(setting, data, random), build::<Memory>(setting, data, random));
    assert!(ours == theirs, "{setting:?}, {data} and {random} bytes");
    (ours.0.answer, ours.0.total)
}

#[test]
fn the_largest_data_is_built_and_one_byte_more_is_size() {
    let size = (Refusal::Size.number(), 0);
    for setting in settings() {
        let largest = (0, [65_543, 65_541][usize::from(setting.profile)]);
        let most = 65_535 - least(setting);
        assert_eq!(built(setting, most, 0), largest);
        assert_eq!(built(setting, most + 1, 0), size);
        if setting.mode == husk::ENCRYPTED {
            assert_eq!((built(setting, most - 9, 9), built(setting, 0, most)), (largest, largest));
            assert_eq!((built(setting, most - 8, 9), built(setting, 0, most + 1)), (size, size));
        }
    }
    assert_eq!(modes().map(|setting| 65_535 - least(setting)), [65_519, 65_517], "page 01's own");
}
