//! All that may come of a call, in a form that can be compared.

use crate::answers::{Built, Offered, Settled};
use crate::raw::{RawReceiver, RawSender};

/// What a call to a receiver answered.
#[derive(Clone, Copy, Debug, PartialEq, Eq)]
pub enum ReceiverAnswer {
    /// Answer and gap count.
    Gaps(u8, u32),
    /// Offer's answer.
    Offer(Offered),
    /// Settle's answer.
    Settle(Settled),
    /// The answer of a key change.
    ChangeKey(u8),
    /// Drop's answer.
    DropOld(u8),
}

impl ReceiverAnswer {
    /// The answer number.
    #[must_use]
    pub fn number(&self) -> u8 {
        match self {
            ReceiverAnswer::Gaps(answer, _)
            | ReceiverAnswer::ChangeKey(answer)
            | ReceiverAnswer::DropOld(answer) => *answer,
            ReceiverAnswer::Offer(offered) => offered.answer,
            ReceiverAnswer::Settle(settled) => settled.answer,
        }
    }
}

/// All that came of a call to a receiver.
#[derive(Clone, Copy, Debug, PartialEq, Eq)]
pub struct ReceiverOutcome {
    /// The answer.
    pub answer: ReceiverAnswer,
    /// The state after the call.
    pub next: RawReceiver,
}

/// What a call to a sender answered.
#[derive(Clone, Copy, Debug, PartialEq, Eq)]
pub enum SenderAnswer {
    /// Build's answer.
    Build(Built),
    /// The answer of a key change.
    ChangeKey(u8),
}

impl SenderAnswer {
    /// The answer number.
    #[must_use]
    pub fn number(&self) -> u8 {
        match self {
            SenderAnswer::Build(built) => built.answer,
            SenderAnswer::ChangeKey(answer) => *answer,
        }
    }
}

/// All that came of a call to a sender.
#[derive(Clone, Debug, PartialEq, Eq)]
pub struct SenderOutcome {
    /// The answer.
    pub answer: SenderAnswer,
    /// The output buffer after the call.
    pub out: Vec<u8>,
    /// The state after the call.
    pub next: RawSender,
}

/// All that came of a call without a state.
#[derive(Clone, Debug, PartialEq, Eq)]
pub struct FunctionOutcome {
    /// The answer number; 0 for view and nonce.
    pub answer: u8,
    /// E-IC in reading data.
    pub integrity: bool,
    /// The encapsulated type, or the length written.
    pub value: u64,
    /// The part handed back, the nonce, or the output buffer after the call.
    pub bytes: Vec<u8>,
}
