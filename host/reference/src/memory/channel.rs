//! A receiver in a good state: every key of the channel with all its marks.

use std::collections::BTreeMap;

use super::key::KeyMemory;
use super::nonce::nonce;
use super::record::{data_part, ends, plain_length, read_header};
use crate::answers::{Offered, Settled};
use crate::raw::{RawKey, RawReceiver};
use crate::refusal::Refusal;
use crate::setting::{Iv, Setting};

/// The key count of each key is its name here, so a dropped key's numbers
/// stay remembered and can never be taken for another key's.
#[derive(Clone, Debug)]
pub(super) struct Channel {
    setting: Setting,
    count: u32,
    held: bool,
    pub(super) keys: BTreeMap<u32, KeyMemory>,
}

/// What Offer finds out, and Settle again.
struct Weighed {
    count: u32,
    number: u64,
    length: u64,
}

impl Channel {
    /// The channel that a good raw state stands for.
    pub(super) fn from_raw(raw: &RawReceiver) -> Self {
        let mut keys = BTreeMap::new();
        keys.insert(raw.count, KeyMemory::from_raw(&raw.current));
        if raw.held {
            keys.insert(raw.count - 1, KeyMemory::from_raw(&raw.old));
        }
        Channel {
            setting: raw.setting,
            count: raw.count,
            held: raw.held,
            keys,
        }
    }

    /// The state as plain fields, worked out from the sets.
    pub(super) fn raw(&self) -> RawReceiver {
        let width = self.setting.width;
        let old = if self.held {
            self.keys[&(self.count - 1)].raw(width)
        } else {
            RawKey::default()
        };
        RawReceiver {
            setting: self.setting,
            count: self.count,
            current: self.keys[&self.count].raw(width),
            held: self.held,
            old,
        }
    }

    /// The key count that a slot stands for, or Key.
    fn count_of(&self, slot: u8) -> Result<u32, Refusal> {
        match slot {
            0 => Ok(self.count),
            1 if self.held => Ok(self.count - 1),
            _ => Err(Refusal::Key),
        }
    }

    /// Every check of Offer.
    fn weigh(&self, rec: &[u8], slot: u8) -> Result<Weighed, Refusal> {
        let count = self.count_of(slot)?;
        let header = read_header(rec, &self.setting)?;
        let number = self.keys[&count].judge(header.low, &self.setting)?;
        Ok(Weighed {
            count,
            number,
            length: header.length,
        })
    }

    pub(super) fn gaps(&self, slot: u8) -> Result<u32, Refusal> {
        Ok(self.keys[&self.count_of(slot)?].gaps(self.setting.width))
    }

    pub(super) fn offer(&self, rec: &[u8], slot: u8) -> Result<Offered, Refusal> {
        let weighed = self.weigh(rec, slot)?;
        let (assoc, text) = ends(&self.setting, weighed.length);
        let iv = &self.keys[&weighed.count].iv;
        Ok(Offered {
            answer: 0,
            count: weighed.count,
            number: weighed.number,
            nonce: nonce(self.setting.layout, iv, weighed.number),
            assoc,
            text,
        })
    }

    pub(super) fn settle(
        &mut self,
        rec: &[u8],
        slot: u8,
        (count, number): (u32, u64),
        passed: bool,
        plain: &[u8],
    ) -> Result<Settled, Refusal> {
        let setting = self.setting;
        let weighed = self.weigh(rec, slot)?;
        Refusal::Stale.when(count != weighed.count || number != weighed.number)?;
        Refusal::Plain.when(plain.len() as u64 != plain_length(&setting, weighed.length))?;
        Refusal::Mac.when(!passed)?;
        // Authentic from here on, so the number is marked even if Inner follows.
        self.remember(count, number);
        let (place, length) = data_part(&setting, weighed.length, plain)?;
        Ok(Settled {
            answer: 0,
            place,
            length,
        })
    }

    fn remember(&mut self, count: u32, number: u64) {
        if let Some(key) = self.keys.get_mut(&count) {
            key.mark(number);
        }
    }

    pub(super) fn change_key(&mut self, iv: Iv) -> Result<(), Refusal> {
        Refusal::Held.when(self.held)?;
        Refusal::Epochs.when(self.count == u32::MAX)?;
        self.count += 1;
        self.held = true;
        self.keys.insert(self.count, KeyMemory::new(iv));
        Ok(())
    }

    /// The host may no longer use the old key; its numbers stay remembered.
    pub(super) fn drop_old(&mut self) -> Result<(), Refusal> {
        Refusal::Key.when(!self.held)?;
        self.held = false;
        Ok(())
    }
}
