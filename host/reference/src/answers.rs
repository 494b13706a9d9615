//! What Build, Offer and Settle answer, and a table's Open. On a refusal all
//! but `answer` is zero.

use crate::refusal::Refusal;
use crate::setting::Nonce;

/// The answer of Build.
#[derive(Clone, Copy, Debug, Default, PartialEq, Eq)]
pub struct Built {
    /// 0, or the number of the refusal.
    pub answer: u8,
    /// The number spent on the record.
    pub number: u64,
    /// The nonce to seal it with.
    pub nonce: Nonce,
    /// End of the associated data.
    pub assoc: u64,
    /// End of the text; the MAC goes here.
    pub text: u64,
    /// Length of the whole record.
    pub total: u64,
}

/// The answer of Offer.
#[derive(Clone, Copy, Debug, Default, PartialEq, Eq)]
pub struct Offered {
    /// 0, or the number of the refusal.
    pub answer: u8,
    /// Key count of the slot asked for.
    pub count: u32,
    /// The record's number.
    pub number: u64,
    /// The nonce to open it with.
    pub nonce: Nonce,
    /// End of the associated data.
    pub assoc: u64,
    /// End of the text; the MAC is here.
    pub text: u64,
}

/// The answer of Settle.
#[derive(Clone, Copy, Debug, Default, PartialEq, Eq)]
pub struct Settled {
    /// 0, or the number of the refusal.
    pub answer: u8,
    /// Where the application data begins in its buffer.
    pub place: u64,
    /// How many bytes of application data there are.
    pub length: u64,
}

/// The answer of a table's Open.
#[derive(Clone, Copy, Debug, Default, PartialEq, Eq)]
pub struct Opened {
    /// 0, or the number of the refusal.
    pub answer: u8,
    /// The row that was taken.
    pub row: u8,
}

impl From<Refusal> for Built {
    fn from(refusal: Refusal) -> Self {
        Built {
            answer: refusal.number(),
            ..Built::default()
        }
    }
}

impl From<Refusal> for Offered {
    fn from(refusal: Refusal) -> Self {
        Offered {
            answer: refusal.number(),
            ..Offered::default()
        }
    }
}

impl From<Refusal> for Settled {
    fn from(refusal: Refusal) -> Self {
        Settled {
            answer: refusal.number(),
            ..Settled::default()
        }
    }
}

impl From<Refusal> for Opened {
    fn from(refusal: Refusal) -> Self {
        Opened {
            answer: refusal.number(),
            ..Opened::default()
        }
    }
}
