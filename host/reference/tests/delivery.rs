//! From end to end over a bad bridge: records come late, again, damaged and
//! after a key change. All that is handed out was sent, and each piece once.

mod common;

use std::collections::BTreeMap;

use common::{good_settings, toy};
use reference::random::{damage, Rng};
use reference::version::{ReceiverCalls, SenderCalls, Version};
use reference::{Offered, Setting};

/// A message on the bridge.
type Message = Vec<u8>;
/// What was sent under each key count and number and not yet handed out.
type Sent = BTreeMap<(u32, u64), Vec<u8>>;

struct Line<V: Version> {
    setting: Setting,
    rng: Rng,
    sender: V::Sender,
    receiver: V::Receiver,
    bridge: Vec<Message>,
    sent: Sent,
    handed: u64,
}

/// The secret of each key, for the toy cipher.
fn secret(count: u32) -> u64 {
    0x5EC2_E700 + u64::from(count)
}

impl<V: Version> Line<V> {
    fn new(setting: Setting, seed: u64) -> Self {
        let mut rng = Rng::new(seed);
        let iv = rng.iv();
        Line {
            setting,
            sender: V::Sender::open(setting, iv).1,
            receiver: V::Receiver::open(setting, iv).1,
            rng,
            bridge: Vec::new(),
            sent: Sent::new(),
            handed: 0,
        }
    }

    /// Wraps, builds, seals and puts a record on the bridge.
    fn send(&mut self) {
        let len = self.rng.below(40) as usize;
        let body = self.rng.bytes(len);
        let mut app = vec![0; len + 1];
        assert_eq!(V::wrap_data(true, 5, &body, &mut app).0, 0);
        let padding = self.rng.below(9) as usize * usize::from(self.setting.mode);
        let random = self.rng.bytes(padding);
        let mut out = [0; 128];
        let built = self.sender.build(&app, &random, &mut out);
        assert_eq!(built.answer, 0);
        let rec = &mut out[..built.total as usize];
        let count = self.sender.raw().count;
        let ends = (built.assoc as usize, built.text as usize);
        toy::seal(secret(count), &built.nonce, rec, ends.0, ends.1);
        let mut msg = vec![0; rec.len() + 1];
        assert_eq!(V::wrap_record(rec, &mut msg).0, 0);
        self.bridge.push(msg);
        self.sent.insert((count, built.number), body);
    }

    /// One of the last messages, in any order, again or damaged.
    fn deliver(&mut self) {
        let reach = usize::from(self.setting.width) + 6;
        let last = self.bridge.len().min(reach) as u64;
        let back = 1 + self.rng.below(last) as usize;
        let mut msg = self.bridge[self.bridge.len() - back].clone();
        if self.rng.one_in(6) {
            damage(&mut self.rng, &self.setting, &mut msg);
        }
        let rec = V::record_of(&msg);
        for slot in 0..2 {
            let offered = self.receiver.offer(rec, slot);
            if offered.answer == 0 && self.settle(rec, slot, &offered) {
                return;
            }
        }
    }

    fn settle(&mut self, rec: &[u8], slot: u8, offered: &Offered) -> bool {
        let (count, number) = (offered.count, offered.number);
        let ends = (offered.assoc as usize, offered.text as usize);
        let (passed, plain) = toy::open(secret(count), &offered.nonce, rec, ends.0, ends.1);
        let settled = self
            .receiver
            .settle(rec, slot, count, number, passed, &plain);
        if settled.answer != 0 {
            assert_eq!((settled.answer, passed), (13, false));
            return false;
        }
        let mode = self.setting.mode;
        let app = V::view(mode, settled.place, settled.length, rec, &plain);
        assert_eq!(V::read_data(app), (0, true, 5));
        let sent = self.sent.remove(&(count, number));
        assert_eq!(
            sent.as_deref(),
            Some(V::body_of(app)),
            "sent, and only once"
        );
        self.handed += 1;
        true
    }

    fn change_key(&mut self) {
        let iv = self.rng.iv();
        if self.receiver.raw().held {
            assert_eq!(self.receiver.drop_old(), 0);
        }
        assert_eq!(self.sender.change_key(iv), 0);
        assert_eq!(self.receiver.change_key(iv), 0);
    }

    fn run(&mut self, steps: u64) {
        for _ in 0..steps {
            match self.rng.below(300) {
                0 => self.change_key(),
                1..=100 => self.send(),
                _ if self.bridge.is_empty() => self.send(),
                _ => self.deliver(),
            }
        }
    }
}

fn what_is_handed_out_was_sent<V: Version>() {
    for (setting, seed) in good_settings().into_iter().zip(60..) {
        let mut line = Line::<V>::new(setting, seed);
        line.run(60_000);
        // Without a number on the wire only the next record in order passes.
        let least = [10_000, 200][usize::from(setting.profile)];
        assert!(line.handed > least, "{}", line.handed);
    }
}

/// In order and without loss every record comes through, over a 16-bit turn.
fn all_that_is_sent_comes_through<V: Version>() {
    for setting in good_settings() {
        let mut line = Line::<V>::new(setting, 70);
        for _ in 0..66_000 {
            line.send();
            let msg = line.bridge.pop().unwrap_or_default();
            let rec = V::record_of(&msg);
            let offered = line.receiver.offer(rec, 0);
            assert_eq!(offered.answer, 0);
            assert!(line.settle(rec, 0, &offered));
        }
        assert!(line.sent.is_empty());
        assert_eq!(line.receiver.gaps(0), (0, 0));
    }
}

for_both!(what_is_handed_out_was_sent, all_that_is_sent_comes_through);
