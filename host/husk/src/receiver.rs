//! The receiver, and the view of its data.
use crate::raw::{self, view, Setting};
use crate::Refusal;

/// The receiving end of a channel.
#[derive(Clone, Copy, Debug, PartialEq, Eq)]
pub struct Receiver {
    state: raw::Receiver,
}

/// What an offer answered: which key, number and nonce the cipher is to use, and where the
/// associated data and the text end in the record.
#[derive(Clone, Copy, Debug, PartialEq, Eq)]
pub struct Offered {
    /// The key count.
    pub count: u32,
    /// The record's number.
    pub number: u64,
    /// The nonce for the cipher.
    pub nonce: [u8; 12],
    /// Where the associated data ends.
    pub assoc: usize,
    /// Where the text ends and the MAC begins: it is the rest of the record.
    pub text: usize,
}

impl Offered {
    pub(crate) fn of(offered: raw::Offered) -> Result<Offered, Refusal> {
        Refusal::answer(offered.answer).map(|()| Offered {
            count: offered.count,
            number: offered.number,
            nonce: offered.nonce,
            assoc: offered.assoc as usize,
            text: offered.text as usize,
        })
    }
}

impl Receiver {
    /// A new channel.
    pub fn open(setting: Setting, iv: [u8; 12]) -> Result<Receiver, Refusal> {
        let step = raw::Receiver::open(setting, iv);
        Refusal::answer(step.answer).map(|()| Receiver { state: step.next })
    }

    /// How many of the last numbers are missing under the slot's key; on the bench none ever is.
    pub fn gaps(&self, slot: u8) -> Result<u32, Refusal> {
        let counted = self.state.gaps(slot);
        Refusal::answer(counted.answer).map(|()| counted.gaps)
    }

    /// What the cipher is to check. It changes nothing.
    pub fn offer(&self, rec: &[u8], slot: u8) -> Result<Offered, Refusal> {
        Offered::of(self.state.offer(rec, slot))
    }

    /// What the cipher said of an offered record: with a yes its number is marked, and its data is
    /// handed out, a part of `rec` in mode 0 and of `plain` in mode 1.
    pub fn settle<'a>(
        &mut self,
        rec: &'a [u8],
        slot: u8,
        count: u32,
        number: u64,
        yes: bool,
        plain: &'a [u8],
    ) -> Result<&'a [u8], Refusal> {
        let mode = self.state.setting.mode;
        let settled = self.state.settle(rec, slot, count, number, u8::from(yes), plain);
        self.state = settled.next;
        Refusal::answer(settled.answer).map(|()| view(mode, settled.place, settled.length, rec, plain))
    }

    /// A new key: the current one becomes the old one, with its window.
    pub fn change_key(&mut self, iv: [u8; 12]) -> Result<(), Refusal> {
        let step = self.state.change_key(iv);
        self.state = step.next;
        Refusal::answer(step.answer)
    }

    /// Forgets the old key. The host decides when (KT1).
    pub fn drop_old(&mut self) -> Result<(), Refusal> {
        let step = self.state.drop_old();
        self.state = step.next;
        Refusal::answer(step.answer)
    }

    /// The state as it lies in memory, to be kept across a restart.
    pub fn state(&self) -> raw::Receiver {
        self.state
    }

    /// A receiver with this state. Any value is taken; the calls refuse those that they never return.
    pub fn from_state(state: raw::Receiver) -> Receiver {
        Receiver { state }
    }
}
