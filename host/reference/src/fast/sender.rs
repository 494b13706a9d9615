//! The sender.

use super::nonce::nonce;
use super::record::{ends, setting_is_bad, smallest_length, write_header};
use crate::answers::Built;
use crate::layout::Record;
use crate::raw::RawSender;
use crate::refusal::Refusal;
use crate::setting::{Iv, Setting};

/// The quick sender.
#[derive(Clone, Debug, PartialEq, Eq)]
pub struct Sender {
    setting: Setting,
    count: u32,
    next: u64,
    iv: Iv,
}

impl Sender {
    /// Opens a channel. A refused one has a state of zeros.
    #[must_use]
    pub fn open(setting: Setting, iv: Iv) -> (u8, Self) {
        if setting_is_bad(&setting) {
            let zeros = Sender::from_raw(RawSender::default());
            return (Refusal::Setting.number(), zeros);
        }
        let new = Sender {
            setting,
            count: 0,
            next: 0,
            iv,
        };
        (0, new)
    }

    /// Takes a state from outside, good or bad.
    #[must_use]
    pub fn from_raw(raw: RawSender) -> Self {
        let RawSender {
            setting,
            count,
            next,
            iv,
        } = raw;
        Sender {
            setting,
            count,
            next,
            iv,
        }
    }

    /// The state as plain fields.
    #[must_use]
    pub fn raw(&self) -> RawSender {
        RawSender {
            setting: self.setting,
            count: self.count,
            next: self.next,
            iv: self.iv,
        }
    }

    /// The channel's setting.
    #[inline]
    pub(super) fn setting(&self) -> &Setting {
        &self.setting
    }

    /// Writes all of a record but the MAC and spends its number.
    #[inline]
    pub fn build(&mut self, app: &[u8], random: &[u8], out: &mut [u8]) -> Built {
        let length = match self.length_for(app.len(), random.len(), out.len()) {
            Ok(length) => length,
            Err(refusal) => return refusal.into(),
        };
        let number = self.next;
        self.write(number, length, app, random, out);
        self.next += 1;
        let (assoc, text) = ends(&self.setting, length);
        Built {
            answer: 0,
            number,
            nonce: nonce(self.setting.layout, &self.iv, number),
            assoc,
            text,
            total: text + u64::from(self.setting.mac),
        }
    }

    /// Goes over to a new key.
    #[inline]
    pub fn change_key(&mut self, iv: Iv) -> u8 {
        if self.is_bad() {
            return Refusal::State.number();
        }
        let Some(count) = self.count.checked_add(1) else {
            return Refusal::Epochs.number();
        };
        self.count = count;
        self.next = 0;
        self.iv = iv;
        0
    }

    #[inline]
    fn is_bad(&self) -> bool {
        setting_is_bad(&self.setting) || self.next > self.setting.limit
    }

    /// The Length field of a record of these sizes, or Build's refusal.
    #[inline]
    fn length_for(&self, app: usize, random: usize, room: usize) -> Result<u16, Refusal> {
        if self.is_bad() {
            return Err(Refusal::State);
        }
        if self.next == self.setting.limit {
            return Err(Refusal::Spent);
        }
        if self.setting.mode == 0 && random != 0 {
            return Err(Refusal::Padding);
        }
        // Saturating, since the sum of two slice lengths may wrap.
        let length = app
            .saturating_add(random)
            .saturating_add(smallest_length(&self.setting));
        let length = u16::try_from(length).map_err(|_| Refusal::Size)?;
        if room < Record::header(self.setting.profile) + usize::from(length) {
            return Err(Refusal::Room);
        }
        Ok(length)
    }

    /// The bytes before the MAC, into a buffer with room for them.
    #[inline]
    fn write(&self, number: u64, length: u16, app: &[u8], random: &[u8], out: &mut [u8]) {
        let mut rest = write_header(&self.setting, number, length, out);
        if self.setting.mode == 1 {
            let (field, after) = rest.split_at_mut(Record::DATA_LENGTH);
            field.copy_from_slice(&(app.len() as u16).to_le_bytes());
            rest = after;
        }
        let (data, after) = rest.split_at_mut(app.len());
        data.copy_from_slice(app);
        after[..random.len()].copy_from_slice(random);
    }
}
