//! Calls to a sender.

use super::rng::Rng;
use crate::kind::Kind;
use crate::layout::Record;
use crate::raw::RawSender;
use crate::setting::{Iv, Setting};

/// One call to a sender with all it is given.
#[derive(Clone, Debug, PartialEq, Eq)]
pub enum SenderCall {
    /// Build.
    Build {
        /// Application data.
        app: Vec<u8>,
        /// Random bytes.
        random: Vec<u8>,
        /// The output buffer as it is before the call.
        out: Vec<u8>,
    },
    /// The sender's key change.
    ChangeKey {
        /// The new IV.
        iv: Iv,
    },
}

impl SenderCall {
    /// Which call it is.
    #[must_use]
    pub fn kind(&self) -> Kind {
        match self {
            SenderCall::Build { .. } => Kind::Build,
            SenderCall::ChangeKey { .. } => Kind::SenderKey,
        }
    }
}

/// Any call to a sender in this state.
pub fn sender_call(rng: &mut Rng, state: &RawSender) -> SenderCall {
    if rng.one_in(16) {
        return SenderCall::ChangeKey { iv: rng.iv() };
    }
    let Setting { mac, profile, .. } = state.setting;
    let (data, padding) = sizes(rng, &state.setting);
    let smallest = Record::header(profile) + usize::from(mac) + Record::DATA_LENGTH;
    let total = smallest + data + padding;
    // Two bytes either way of the total, since mode 0 has two fewer.
    let room = match rng.below(8) {
        0 => rng.below(total as u64 + 1) as usize,
        1..=3 => total - 4 + rng.below(6) as usize,
        _ => total + rng.below(20) as usize,
    };
    SenderCall::Build {
        app: rng.bytes(data),
        random: rng.bytes(padding),
        out: rng.bytes(room),
    }
}

/// Sizes of the data and the random bytes, rarely around the largest record.
fn sizes(rng: &mut Rng, setting: &Setting) -> (usize, usize) {
    let Setting { mode, mac, .. } = *setting;
    if rng.one_in(400) {
        let whole = 65_530 - usize::from(mac) + rng.below(9) as usize;
        let data = rng.pick(&[0, 1, 30_000, whole]);
        return if mode == 0 {
            (whole, 0)
        } else {
            (data, whole - data)
        };
    }
    // Mode 0 has none, so there a few are wrong; mode 1 goes without at times.
    let padded = rng.one_in(8) == (mode == 0);
    let padding = if padded { rng.below(24) } else { 0 };
    (rng.below(60) as usize, padding as usize)
}
