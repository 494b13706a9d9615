//! Over a run from Open no number is handed out twice under one key, and the
//! memory holds exactly the numbers that were authentic.

mod common;

use std::collections::{BTreeMap, BTreeSet};

use reference::compare::{apply_receiver, apply_sender, ReceiverAnswer, SenderAnswer};
use reference::random::{good_setting, sender_call, Mailbox, ReceiverCall, Rng, SenderCall};
use reference::version::{Memory, ReceiverCalls, SenderCalls, Version};
use reference::Settled;

type Numbers = BTreeMap<u32, BTreeSet<u64>>;

/// The numbers marked in a run, and the receiver after it.
fn run<V: Version>(rng: &mut Rng, calls: u64) -> (Numbers, V::Receiver) {
    let (_, mut receiver) = V::Receiver::open(good_setting(rng), rng.iv());
    let mut mailbox = Mailbox::new(rng);
    let mut numbers = Numbers::new();
    for _ in 0..calls {
        let call = mailbox.next_call(rng, &receiver.raw());
        let outcome = apply_receiver(&mut receiver, &call);
        let (ReceiverCall::Settle { count, number, .. }, ReceiverAnswer::Settle(settled)) =
            (&call, outcome.answer)
        else {
            continue;
        };
        let Settled { answer, .. } = settled;
        if answer == 0 || answer == 14 {
            let new = numbers.entry(*count).or_default().insert(*number);
            assert!(new, "number {number} of key {count} was marked before");
        }
    }
    (numbers, receiver)
}

fn no_number_twice<V: Version>() {
    let mut rng = Rng::new(51);
    let mut marked = 0;
    for _ in 0..200 {
        let (numbers, _) = run::<V>(&mut rng, 1_000);
        marked += numbers.values().map(BTreeSet::len).sum::<usize>();
    }
    assert!(marked > 10_000, "{marked}");
}

#[test]
fn nothing_is_forgotten() {
    let mut rng = Rng::new(52);
    for _ in 0..100 {
        let (numbers, receiver) = run::<Memory>(&mut rng, 1_000);
        for (count, set) in &numbers {
            assert_eq!(receiver.remembered(*count), Some(set));
        }
    }
}

/// A sender's run uses 0, 1, 2 and on under each key.
fn one_after_another<V: Version>() {
    let mut rng = Rng::new(53);
    for _ in 0..200 {
        let (_, mut sender) = V::Sender::open(good_setting(&mut rng), rng.iv());
        let (mut count, mut next) = (0, 0);
        for _ in 0..200 {
            let call: SenderCall = sender_call(&mut rng, &sender.raw());
            match apply_sender(&mut sender, &call).answer {
                SenderAnswer::Build(built) if built.answer == 0 => {
                    assert_eq!(built.number, next);
                    next += 1;
                }
                SenderAnswer::ChangeKey(0) => (count, next) = (count + 1, 0),
                _ => {}
            }
            assert_eq!((sender.raw().count, sender.raw().next), (count, next));
        }
    }
}

for_both!(no_number_twice, one_after_another);
