//! A run of receive calls as a bad bridge would make them: it keeps records,
//! delivers them again later, and settles offers that have gone stale.

use super::calls::{receiver_call, settle_call, ReceiverCall};
use super::records::record;
use super::rng::Rng;
use crate::raw::RawReceiver;

/// The calls kept for another delivery.
#[derive(Clone, Debug)]
pub struct Mailbox {
    kept: Vec<ReceiverCall>,
    calm: bool,
}

impl Mailbox {
    /// How many it keeps; a new one then takes the place of any other.
    const SIZE: usize = 12;

    /// A mailbox for one run. Half of the runs are calm: few jumps and few key
    /// changes, so that windows fill up and a key's memory grows long.
    #[must_use]
    pub fn new(rng: &mut Rng) -> Self {
        let calm = rng.one_in(2);
        let kept = Vec::new();
        Mailbox { kept, calm }
    }

    /// The next call of the run, new or delivered again.
    pub fn next_call(&mut self, rng: &mut Rng, state: &RawReceiver) -> ReceiverCall {
        if !self.kept.is_empty() && rng.one_in(5) {
            let again = rng.below(self.kept.len() as u64) as usize;
            return other_slot(rng, self.kept[again].clone());
        }
        let call = if self.calm && !rng.one_in(16) {
            calm_call(rng, state)
        } else {
            receiver_call(rng, state)
        };
        if matches!(call, ReceiverCall::Settle { .. }) {
            self.keep(rng, call.clone());
        }
        call
    }

    fn keep(&mut self, rng: &mut Rng, call: ReceiverCall) {
        if self.kept.len() < Self::SIZE {
            self.kept.push(call);
        } else {
            let place = rng.below(Self::SIZE as u64) as usize;
            self.kept[place] = call;
        }
    }
}

/// A sound record from within the window or just above it.
fn calm_call(rng: &mut Rng, state: &RawReceiver) -> ReceiverCall {
    let slot = u8::from(state.held && rng.one_in(3));
    if rng.one_in(12) {
        return ReceiverCall::Gaps { slot };
    }
    let next = match slot {
        1 => state.old.next,
        _ => state.current.next,
    };
    let step = if rng.one_in(2) {
        rng.between(0, 2)
    } else {
        rng.between(-2 - i64::from(state.setting.width), 0)
    };
    let low = next.wrapping_add_signed(step) as u16;
    let length = u16::from(state.setting.mac) + 2 + rng.below(8) as u16;
    let rec = record(rng, &state.setting, low, length);
    settle_call(rng, state, rec, slot)
}

/// After a key change the same record belongs in the other slot.
fn other_slot(rng: &mut Rng, mut call: ReceiverCall) -> ReceiverCall {
    if let ReceiverCall::Settle { slot, .. } = &mut call {
        if rng.one_in(3) {
            *slot = rng.below(2) as u8;
        }
    }
    call
}
