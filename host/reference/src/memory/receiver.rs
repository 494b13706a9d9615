//! The receiver, for every state value that may be given from outside.

use std::collections::BTreeSet;

use super::channel::Channel;
use super::rule::{receiver_is_bad, setting_is_bad};
use crate::answers::{Offered, Settled};
use crate::raw::{RawKey, RawReceiver};
use crate::refusal::{answer_of, Refusal};
use crate::setting::{Iv, Setting};

/// The plain receiver.
#[derive(Clone, Debug)]
pub struct Receiver {
    kept: Kept,
}

/// Only a good state has a meaning as sets. A bad one is kept as it was given,
/// to be refused and given back unchanged.
#[derive(Clone, Debug)]
enum Kept {
    Bad(RawReceiver),
    Good(Channel),
}

impl Receiver {
    /// Opens a channel. A refused one has a state of zeros.
    #[must_use]
    pub fn open(setting: Setting, iv: Iv) -> (u8, Self) {
        if setting_is_bad(&setting) {
            let zeros = Receiver::from_raw(RawReceiver::default());
            return (Refusal::Setting.number(), zeros);
        }
        let current = RawKey {
            iv,
            ..RawKey::default()
        };
        let new = RawReceiver {
            setting,
            current,
            ..RawReceiver::default()
        };
        (0, Receiver::from_raw(new))
    }

    /// Takes a state from outside, good or bad.
    #[must_use]
    pub fn from_raw(raw: RawReceiver) -> Self {
        let kept = if receiver_is_bad(&raw) {
            Kept::Bad(raw)
        } else {
            Kept::Good(Channel::from_raw(&raw))
        };
        Receiver { kept }
    }

    /// The state as plain fields; E and the words are worked out from the sets.
    #[must_use]
    pub fn raw(&self) -> RawReceiver {
        match &self.kept {
            Kept::Bad(raw) => *raw,
            Kept::Good(channel) => channel.raw(),
        }
    }

    /// All numbers ever marked under the key with this count, dropped or not.
    #[must_use]
    pub fn remembered(&self, count: u32) -> Option<&BTreeSet<u64>> {
        let channel = self.channel().ok()?;
        channel.keys.get(&count).map(|key| &key.marked)
    }

    /// The gap count of a key.
    #[must_use]
    pub fn gaps(&self, slot: u8) -> (u8, u32) {
        match self.channel().and_then(|channel| channel.gaps(slot)) {
            Ok(gaps) => (0, gaps),
            Err(refusal) => (refusal.number(), 0),
        }
    }

    /// Works out what the cipher needs. Never changes the state.
    #[must_use]
    pub fn offer(&self, rec: &[u8], slot: u8) -> Offered {
        self.channel()
            .and_then(|channel| channel.offer(rec, slot))
            .unwrap_or_else(Offered::from)
    }

    /// Takes the cipher's answer and hands out the application data's place.
    pub fn settle(
        &mut self,
        rec: &[u8],
        slot: u8,
        count: u32,
        number: u64,
        passed: bool,
        plain: &[u8],
    ) -> Settled {
        self.channel_mut()
            .and_then(|channel| channel.settle(rec, slot, (count, number), passed, plain))
            .unwrap_or_else(Settled::from)
    }

    /// Goes over to a new key and holds the one before as the old key.
    pub fn change_key(&mut self, iv: Iv) -> u8 {
        answer_of(self.channel_mut().and_then(|c| c.change_key(iv)))
    }

    /// Drop: forgets the old key.
    pub fn drop_old(&mut self) -> u8 {
        answer_of(self.channel_mut().and_then(Channel::drop_old))
    }

    fn channel(&self) -> Result<&Channel, Refusal> {
        match &self.kept {
            Kept::Bad(_) => Err(Refusal::State),
            Kept::Good(channel) => Ok(channel),
        }
    }

    fn channel_mut(&mut self) -> Result<&mut Channel, Refusal> {
        match &mut self.kept {
            Kept::Bad(_) => Err(Refusal::State),
            Kept::Good(channel) => Ok(channel),
        }
    }
}
