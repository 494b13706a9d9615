//! Records of a channel that are sent first and delivered later, in any order.
use crate::channel::Channel;
use crate::sealing::{receive, send, Sent};
use reference::version::{ReceiverCalls, Version};

/// Sends so many records.
pub fn sent<V: Version>(channel: &mut Channel<V>, count: u64) -> Vec<Sent> {
    (0..count).map(|_| send(&mut channel.sender, &channel.keys, &mut channel.rng).unwrap()).collect()
}

/// Delivers a record in a slot and answers what came of it: what is handed out was sent, and what is refused
/// marks nothing.
pub fn deliver<V: Version>(channel: &mut Channel<V>, record: &Sent, slot: u8) -> u8 {
    let before = channel.receiver.raw();
    let (answer, count, number, data) = receive::<V>(&mut channel.receiver, &channel.keys, &record.bytes, slot);
    if answer == 0 {
        assert_eq!((count, number, &data), (record.count, record.number, &record.app));
    } else {
        assert_eq!(channel.receiver.raw(), before, "nothing is marked");
    }
    answer
}
