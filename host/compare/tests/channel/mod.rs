//! A channel on real cipher text whose ends may differ in their settings, under the same keys and IVs.
use crate::sealing::{receive, send, Keys, Sent};
use cipher::Suite;
use reference::random::Rng;
use reference::version::{ReceiverCalls, SenderCalls, Version};
use reference::{Refusal, Setting};

/// Records of each key: their numbers take two bytes, and are more than a window remembers.
const RECORDS: u64 = 300;

/// A sender of one setting, and a receiver of maybe another.
pub struct Channel<V: Version> {
    pub keys: Keys,
    pub sender: V::Sender,
    pub receiver: V::Receiver,
    pub rng: Rng,
}

impl<V: Version> Channel<V> {
    pub fn open(suite: Suite, from: Setting, to: Setting) -> Self {
        let keys = Keys { suite, seed: 7 };
        let (sent, sender) = V::Sender::open(from, keys.iv(0));
        let (received, receiver) = V::Receiver::open(to, keys.iv(0));
        assert_eq!((sent, received), (0, 0));
        Channel { keys, sender, receiver, rng: Rng::new(8) }
    }

    fn change_key(&mut self) {
        let iv = self.keys.iv(1);
        assert_eq!((self.sender.change_key(iv), self.receiver.change_key(iv)), (0, 0));
    }

    /// Delivers a record under the current key.
    fn take(&mut self, record: &Sent) -> (u8, u32, u64, Vec<u8>) {
        receive::<V>(&mut self.receiver, &self.keys, &record.bytes, husk::CURRENT)
    }

    /// Delivers a record that is refused so. Nothing is marked.
    fn refuse(&mut self, record: &Sent, answer: u8) {
        let before = self.receiver.raw();
        // The bench's receiver offers every record with the number that comes next.
        let on_bench = before.setting.profile == husk::PROFILE_BENCH;
        let number = if on_bench { before.current.next } else { record.number };
        // Only where the cipher ran was the record offered, with its key and number.
        let offered = if answer == Refusal::Mac.number() { (record.count, number) } else { (0, 0) };
        assert_eq!(self.take(record), (answer, offered.0, offered.1, Vec::new()));
        assert_eq!(self.receiver.raw(), before, "nothing is marked");
    }

    /// Sends the record of this key and number, and delivers it. It is handed out, once, or refused as
    /// expected, and then the receiver stays as it was. Answers which.
    fn deliver(&mut self, count: u32, number: u64, expected: &impl Fn(&Sent) -> u8) -> u8 {
        let record = send(&mut self.sender, &self.keys, &mut self.rng).unwrap();
        assert_eq!((record.count, record.number), (count, number));
        let answer = expected(&record);
        if answer == 0 {
            assert_eq!(self.take(&record), (0, count, number, record.app.clone()));
            // On the bench it is taken for the next record, and the cipher says no.
            let again = [Refusal::Repeat, Refusal::Mac][usize::from(self.receiver.raw().setting.profile)];
            self.refuse(&record, again.number());
        } else {
            self.refuse(&record, answer);
        }
        assert_eq!(self.receiver.gaps(husk::CURRENT), (0, 0), "nothing is missing before the last that was marked");
        answer
    }

    /// Sends and delivers so many records under each of two keys. Answers what was answered to each.
    pub fn run(mut self, expected: impl Fn(&Sent) -> u8) -> Vec<u8> {
        let mut answers = Vec::new();
        for count in 0..2 {
            answers.extend((0..RECORDS).map(|number| self.deliver(count, number, &expected)));
            if count == 0 {
                self.change_key();
            }
        }
        answers
    }
}
