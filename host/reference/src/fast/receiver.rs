//! The receiver.

use super::key::Key;
use super::nonce::nonce;
use super::record::{data_part, ends, read_header, setting_is_bad};
use crate::answers::{Offered, Settled};
use crate::raw::RawReceiver;
use crate::refusal::Refusal;
use crate::setting::{Iv, Setting};

/// The quick receiver.
#[derive(Clone, Debug, PartialEq, Eq)]
pub struct Receiver {
    setting: Setting,
    count: u32,
    held: bool,
    current: Key,
    old: Key,
}

/// What the checks of Offer work out.
struct Checked {
    count: u32,
    number: u64,
    length: u16,
}

impl Receiver {
    /// Opens a channel. A refused one has a state of zeros.
    #[must_use]
    pub fn open(setting: Setting, iv: Iv) -> (u8, Self) {
        if setting_is_bad(&setting) {
            let zeros = Receiver::from_raw(RawReceiver::default());
            return (Refusal::Setting.number(), zeros);
        }
        let new = Receiver {
            setting,
            count: 0,
            held: false,
            current: Key::new(iv),
            old: Key::default(),
        };
        (0, new)
    }

    /// Takes a state from outside, good or bad.
    #[must_use]
    pub fn from_raw(raw: RawReceiver) -> Self {
        Receiver {
            setting: raw.setting,
            count: raw.count,
            held: raw.held,
            current: raw.current.into(),
            old: raw.old.into(),
        }
    }

    /// The state as plain fields.
    #[must_use]
    pub fn raw(&self) -> RawReceiver {
        RawReceiver {
            setting: self.setting,
            count: self.count,
            held: self.held,
            current: self.current.into(),
            old: self.old.into(),
        }
    }

    /// The channel's setting.
    #[inline]
    pub(super) fn setting(&self) -> &Setting {
        &self.setting
    }

    /// The gap count of a key.
    #[inline]
    #[must_use]
    pub fn gaps(&self, slot: u8) -> (u8, u32) {
        match self.key(slot) {
            Ok((_, key)) => (0, key.window.gaps(self.setting.width)),
            Err(refusal) => (refusal.number(), 0),
        }
    }

    /// Works out what the cipher needs. Never changes the state.
    #[inline]
    #[must_use]
    pub fn offer(&self, rec: &[u8], slot: u8) -> Offered {
        let (key, checked) = match self.check(rec, slot) {
            Ok(found) => found,
            Err(refusal) => return refusal.into(),
        };
        let (assoc, text) = ends(&self.setting, checked.length);
        Offered {
            answer: 0,
            count: checked.count,
            number: checked.number,
            nonce: nonce(self.setting.layout, &key.iv, checked.number),
            assoc,
            text,
        }
    }

    /// Takes the cipher's answer and hands out the application data's place.
    #[inline]
    pub fn settle(
        &mut self,
        rec: &[u8],
        slot: u8,
        count: u32,
        number: u64,
        passed: bool,
        plain: &[u8],
    ) -> Settled {
        let settled = self.try_settle(rec, slot, (count, number), passed, plain);
        settled.unwrap_or_else(Settled::from)
    }

    /// Goes over to a new key and holds the one before as the old key.
    #[inline]
    pub fn change_key(&mut self, iv: Iv) -> u8 {
        if self.is_bad() {
            return Refusal::State.number();
        }
        if self.held {
            return Refusal::Held.number();
        }
        let Some(count) = self.count.checked_add(1) else {
            return Refusal::Epochs.number();
        };
        self.count = count;
        self.held = true;
        self.old = std::mem::replace(&mut self.current, Key::new(iv));
        0
    }

    /// Drop: forgets the old key.
    #[inline]
    pub fn drop_old(&mut self) -> u8 {
        if self.is_bad() {
            return Refusal::State.number();
        }
        if !self.held {
            return Refusal::Key.number();
        }
        self.held = false;
        self.old = Key::default();
        0
    }

    /// The State rule.
    #[inline]
    fn is_bad(&self) -> bool {
        let setting = &self.setting;
        let bad_old = if self.held {
            self.count == 0 || self.old.window.is_bad(setting)
        } else {
            !self.old.is_zero()
        };
        setting_is_bad(setting) || self.current.window.is_bad(setting) || bad_old
    }

    /// The slot's key with its key count, or State or Key.
    #[inline]
    fn key(&self, slot: u8) -> Result<(u32, &Key), Refusal> {
        if self.is_bad() {
            return Err(Refusal::State);
        }
        match slot {
            0 => Ok((self.count, &self.current)),
            1 if self.held => Ok((self.count - 1, &self.old)),
            _ => Err(Refusal::Key),
        }
    }

    /// Every check of Offer.
    #[inline]
    fn check(&self, rec: &[u8], slot: u8) -> Result<(&Key, Checked), Refusal> {
        let (count, key) = self.key(slot)?;
        let header = read_header(rec, &self.setting)?;
        let number = key.window.judge(header.low, &self.setting)?;
        let checked = Checked {
            count,
            number,
            length: header.length,
        };
        Ok((key, checked))
    }

    #[inline]
    fn try_settle(
        &mut self,
        rec: &[u8],
        slot: u8,
        claim: (u32, u64),
        passed: bool,
        plain: &[u8],
    ) -> Result<Settled, Refusal> {
        let (_, checked) = self.check(rec, slot)?;
        if claim != (checked.count, checked.number) {
            return Err(Refusal::Stale);
        }
        let sealed = usize::from(checked.length) - usize::from(self.setting.mac);
        let wanted = if self.setting.mode == 0 { 0 } else { sealed };
        if plain.len() != wanted {
            return Err(Refusal::Plain);
        }
        if !passed {
            return Err(Refusal::Mac);
        }
        // Marked before Inner is looked for: the record was authentic.
        let key = if slot == 0 {
            &mut self.current
        } else {
            &mut self.old
        };
        key.window.mark(checked.number, self.setting.width);
        let (place, length) = data_part(self.setting.profile, plain, sealed)?;
        Ok(Settled {
            answer: 0,
            place: place as u64,
            length: length as u64,
        })
    }
}
