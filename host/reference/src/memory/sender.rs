//! The sender: one number after another, none twice under one key.

use super::nonce::nonce;
use super::record::{ends, header_length, length_for, unsealed};
use super::rule::{sender_is_bad, setting_is_bad};
use crate::answers::Built;
use crate::layout::Record;
use crate::raw::RawSender;
use crate::refusal::{answer_of, Refusal};
use crate::setting::{Iv, Setting};

/// The plain sender.
#[derive(Clone, Debug, PartialEq, Eq)]
pub struct Sender {
    state: RawSender,
}

impl Sender {
    /// Opens a channel. A refused one has a state of zeros.
    #[must_use]
    pub fn open(setting: Setting, iv: Iv) -> (u8, Self) {
        if setting_is_bad(&setting) {
            let zeros = Sender::from_raw(RawSender::default());
            return (Refusal::Setting.number(), zeros);
        }
        let (count, next) = (0, 0);
        let state = RawSender {
            setting,
            count,
            next,
            iv,
        };
        (0, Sender { state })
    }

    /// Takes a state from outside, good or bad.
    #[must_use]
    pub fn from_raw(state: RawSender) -> Self {
        Sender { state }
    }

    /// The state as plain fields.
    #[must_use]
    pub fn raw(&self) -> RawSender {
        self.state
    }

    /// Writes all of a record but the MAC and spends its number.
    pub fn build(&mut self, app: &[u8], random: &[u8], out: &mut [u8]) -> Built {
        self.try_build(app, random, out).unwrap_or_else(Built::from)
    }

    /// Goes over to a new key.
    pub fn change_key(&mut self, iv: Iv) -> u8 {
        answer_of(self.try_change_key(iv))
    }

    fn try_build(&mut self, app: &[u8], random: &[u8], out: &mut [u8]) -> Result<Built, Refusal> {
        let RawSender { setting, next, .. } = self.state;
        Refusal::State.when(sender_is_bad(&self.state))?;
        Refusal::Spent.when(next == setting.limit)?;
        Refusal::Padding.when(setting.mode == 0 && !random.is_empty())?;
        let length = length_for(&setting, app.len(), random.len());
        Refusal::Size.when(length > Record::LARGEST as u128)?;
        let length = length as u64;
        let total = header_length(&setting) + length;
        Refusal::Room.when((out.len() as u64) < total)?;

        let bytes = unsealed(&setting, next, length, app, random);
        out[..bytes.len()].copy_from_slice(&bytes);
        self.state.next = next + 1;
        let (assoc, text) = ends(&setting, length);
        Ok(Built {
            answer: 0,
            number: next,
            nonce: nonce(setting.layout, &self.state.iv, next),
            assoc,
            text,
            total,
        })
    }

    fn try_change_key(&mut self, iv: Iv) -> Result<(), Refusal> {
        Refusal::State.when(sender_is_bad(&self.state))?;
        Refusal::Epochs.when(self.state.count == u32::MAX)?;
        self.state.count += 1;
        self.state.next = 0;
        self.state.iv = iv;
        Ok(())
    }
}
