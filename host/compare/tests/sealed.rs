//! Real cipher text: what either version builds and the cipher seals, both read back alike, in both modes,
//! layouts and profiles, with each MAC length, each width of the window and both ciphers, over losses, repeats,
//! damage, key changes with late records, and drops. Whatever is handed out was sent, under its key and number,
//! and is handed out once.
mod sealing;

use cipher::Suite;
use compare::Husk;
use reference::random::Rng;
use reference::version::{Memory, ReceiverCalls, SenderCalls, Version};
use reference::{RawReceiver, Setting};
use sealing::{receive, send, suites, Keys, Sent};
use std::collections::{HashMap, HashSet};

/// The record that comes next under the receiver's current key, if it was sent.
fn awaited<'a>(mail: &'a [Sent], receiver: &RawReceiver) -> Option<&'a Sent> {
    mail.iter().find(|record| (record.count, record.number) == (receiver.count, receiver.current.next))
}

/// One of the last records that were sent, some of which lie behind the window, damaged one time in five. On the
/// bench it is mostly the next, or few would be handed out.
fn arrived(mail: &[Sent], receiver: &RawReceiver, rng: &mut Rng) -> Sent {
    let last = mail.len().min(usize::from(receiver.setting.width) + 26);
    let late = &mail[mail.len() - 1 - rng.below(last as u64) as usize];
    let in_order = receiver.setting.profile == husk::PROFILE_BENCH && !rng.one_in(4);
    let next = awaited(mail, receiver).filter(|_| in_order);
    let mut record = next.unwrap_or(late).clone();
    if rng.one_in(5) {
        let place = rng.below(record.bytes.len() as u64) as usize;
        record.bytes[place] ^= 1 << rng.below(8);
    }
    record
}

/// One run: a sender of version `S`, receivers of both versions side by side. Answers how many records
/// were handed out.
fn run<S: Version>(suite: Suite, setting: Setting, seed: u64) -> usize {
    let mut rng = Rng::new(seed);
    let keys = Keys { suite, seed };
    let setting = Setting { session: rng.word() as u32, ..setting };
    let mut sender = S::Sender::open(setting, keys.iv(0)).1;
    let mut ours = <Husk as Version>::Receiver::open(setting, keys.iv(0)).1;
    let mut theirs = <Memory as Version>::Receiver::open(setting, keys.iv(0)).1;
    let (mut mail, mut sent, mut handed) = (Vec::<Sent>::new(), HashMap::new(), HashSet::new());
    for _ in 0..400 {
        match rng.below(12) {
            0 if ours.raw().held => assert_eq!(ours.drop_old(), theirs.drop_old()),
            1 if !ours.raw().held && rng.one_in(4) => {
                let iv = keys.iv(sender.raw().count + 1);
                assert_eq!((sender.change_key(iv), ours.change_key(iv), theirs.change_key(iv)), (0, 0, 0));
            }
            2..=6 => {
                let record = send(&mut sender, &keys, &mut rng).unwrap();
                sent.insert((record.count, record.number), record.app.clone());
                mail.push(record);
            }
            _ if mail.is_empty() => {}
            _ => {
                let record = arrived(&mail, &ours.raw(), &mut rng);
                let slot = u8::from(record.count != ours.raw().count);
                let answer = receive::<Husk>(&mut ours, &keys, &record.bytes, slot);
                assert_eq!(answer, receive::<Memory>(&mut theirs, &keys, &record.bytes, slot));
                if answer.0 == 0 {
                    let pair = (answer.1, answer.2);
                    assert_eq!(sent.get(&pair), Some(&answer.3), "handed out what was never sent");
                    assert!(handed.insert(pair), "handed out twice");
                }
            }
        }
        assert_eq!(ours.raw(), theirs.raw());
    }
    handed.len()
}

/// Both modes, in both layouts, with each MAC length, in this profile and with a window of this width.
fn settings(profile: u8, width: u16) -> impl Iterator<Item = Setting> {
    let modes = [0, 1].map(|mode| Setting { profile, width, ..Setting::new(mode, 0, 1 << 20) }).into_iter();
    let laid = modes.flat_map(|setting| [setting, Setting { layout: 1, ..setting }]);
    laid.flat_map(|setting| husk::MACS.map(|mac| Setting { mac, ..setting }))
}

fn read_back(profile: u8) {
    let mut handed = 0;
    for (seed, width) in (0..).zip(husk::WIDTHS.into_iter().cycle().take(8)) {
        for setting in settings(profile, width) {
            for suite in suites(setting.mac) {
                handed += run::<Husk>(suite, setting, seed);
                handed += run::<Memory>(suite, setting, seed);
            }
        }
    }
    assert!(handed > 10_000, "only {} records were handed out", handed);
}

#[test]
fn sealed_records_are_read_back_alike_and_once() {
    read_back(husk::PROFILE_BUS);
}

#[test]
fn so_they_are_on_the_bench() {
    read_back(husk::PROFILE_BENCH);
}
