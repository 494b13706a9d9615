//! Calls to a receiver in a given state.

use super::records::{any_record, plain_for};
use super::rng::Rng;
use crate::answers::Offered;
use crate::fast;
use crate::kind::Kind;
use crate::raw::RawReceiver;
use crate::setting::Iv;

/// One call to a receiver with all it is given.
#[derive(Clone, Debug, PartialEq, Eq)]
pub enum ReceiverCall {
    /// Gaps.
    Gaps {
        /// Key slot.
        slot: u8,
    },
    /// Offer.
    Offer {
        /// The record.
        rec: Vec<u8>,
        /// Key slot.
        slot: u8,
    },
    /// Settle.
    Settle {
        /// The record.
        rec: Vec<u8>,
        /// Key slot.
        slot: u8,
        /// Key count from the offer.
        count: u32,
        /// Number from the offer.
        number: u64,
        /// What the cipher said.
        passed: bool,
        /// The plaintext buffer.
        plain: Vec<u8>,
    },
    /// The receiver's key change.
    ChangeKey {
        /// The new IV.
        iv: Iv,
    },
    /// Drop.
    DropOld,
}

impl ReceiverCall {
    /// Which call it is.
    #[must_use]
    pub fn kind(&self) -> Kind {
        match self {
            ReceiverCall::Gaps { .. } => Kind::Gaps,
            ReceiverCall::Offer { .. } => Kind::Offer,
            ReceiverCall::Settle { .. } => Kind::Settle,
            ReceiverCall::ChangeKey { .. } => Kind::ReceiverKey,
            ReceiverCall::DropOld => Kind::Drop,
        }
    }
}

/// Any call to a receiver in this state.
pub fn receiver_call(rng: &mut Rng, state: &RawReceiver) -> ReceiverCall {
    let slot = slot(rng, state);
    match rng.below(32) {
        0 | 1 => ReceiverCall::Gaps { slot },
        2 => ReceiverCall::ChangeKey { iv: rng.iv() },
        3 => ReceiverCall::DropOld,
        4..=11 => ReceiverCall::Offer {
            rec: any_record(rng, state, slot),
            slot,
        },
        _ => {
            let rec = any_record(rng, state, slot);
            settle_call(rng, state, rec, slot)
        }
    }
}

/// Settle for a record, mostly with the count and number that an offer in
/// this state would give.
pub fn settle_call(rng: &mut Rng, state: &RawReceiver, rec: Vec<u8>, slot: u8) -> ReceiverCall {
    // The call is only to be likely; a wrong number here would be Stale.
    let offered = fast::Receiver::from_raw(*state).offer(&rec, slot);
    let (count, number) = claim(rng, &offered);
    let plain = plain_for(rng, &state.setting, &rec);
    ReceiverCall::Settle {
        rec,
        slot,
        count,
        number,
        passed: !rng.one_in(8),
        plain,
    }
}

/// The offer's count and number, once in ten times not quite.
fn claim(rng: &mut Rng, offered: &Offered) -> (u32, u64) {
    let Offered { count, number, .. } = *offered;
    match rng.below(40) {
        0 => (count.wrapping_add(1), number),
        1 => (count.wrapping_sub(1), number),
        2 => (count, number.wrapping_add(rng.pick(&[1, 65_536, 1 << 32]))),
        3 => (rng.word() as u32, rng.word()),
        _ => (count, number),
    }
}

/// Mostly a slot with a key in it.
fn slot(rng: &mut Rng, state: &RawReceiver) -> u8 {
    match rng.below(16) {
        0 => rng.pick(&[1, 2, 3, 255]),
        1..=6 => u8::from(state.held),
        _ => 0,
    }
}
