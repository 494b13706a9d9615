//! The sender.
use crate::raw::{self, Setting};
use crate::Refusal;

/// The sending end of a channel.
#[derive(Clone, Copy, Debug, PartialEq, Eq)]
pub struct Sender {
    state: raw::Sender,
}

/// What a build answered: the number and nonce for the cipher, the ends of the associated data and
/// of the text in the buffer, and the record's whole length, its MAC included.
#[derive(Clone, Copy, Debug, PartialEq, Eq)]
pub struct Built {
    /// The record's number.
    pub number: u64,
    /// The nonce for the cipher.
    pub nonce: [u8; 12],
    /// Where the associated data ends.
    pub assoc: usize,
    /// Where the text ends and the MAC goes: it fills the rest of the record.
    pub text: usize,
    /// The length of the whole record.
    pub total: usize,
}

impl Sender {
    /// A new channel.
    pub fn open(setting: Setting, iv: [u8; 12]) -> Result<Sender, Refusal> {
        let step = raw::Sender::open(setting, iv);
        Refusal::answer(step.answer).map(|()| Sender { state: step.next })
    }

    /// Writes all of a record but its MAC at the start of `out`. The number is spent, whatever the
    /// cipher then does.
    pub fn build(&mut self, app: &[u8], random: &[u8], out: &mut [u8]) -> Result<Built, Refusal> {
        let built = self.state.build(app, random, out);
        self.state = built.next;
        Refusal::answer(built.answer).map(|()| Built {
            number: built.number,
            nonce: built.nonce,
            assoc: built.assoc as usize,
            text: built.text as usize,
            total: built.total as usize,
        })
    }

    /// A new key: its IV, and the numbers from 0 again.
    pub fn change_key(&mut self, iv: [u8; 12]) -> Result<(), Refusal> {
        let step = self.state.change_key(iv);
        self.state = step.next;
        Refusal::answer(step.answer)
    }

    /// The state as it lies in memory, to be kept across a restart.
    pub fn state(&self) -> raw::Sender {
        self.state
    }

    /// A sender with this state. Any value is taken; the calls refuse those that they never return.
    pub fn from_state(state: raw::Sender) -> Sender {
        Sender { state }
    }
}
