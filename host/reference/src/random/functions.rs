//! Calls without a state: wrapping, view and nonce.

use super::numbers::edge;
use super::rng::Rng;
use crate::kind::Kind;
use crate::setting::Iv;

/// One call without a state. `out` is the buffer as it is before the call.
#[derive(Clone, Debug, PartialEq, Eq)]
pub enum FunctionCall {
    /// Writing application data.
    WrapData {
        /// E-IC.
        integrity: bool,
        /// The encapsulated type.
        kind: u8,
        /// The body.
        body: Vec<u8>,
        /// The output buffer.
        out: Vec<u8>,
    },
    /// Reading application data, and its body.
    ReadData {
        /// The data.
        data: Vec<u8>,
    },
    /// Writing an MCTP message.
    WrapRecord {
        /// The record.
        rec: Vec<u8>,
        /// The output buffer.
        out: Vec<u8>,
    },
    /// Reading an MCTP message, and its record.
    ReadMessage {
        /// The message.
        msg: Vec<u8>,
    },
    /// The view.
    View {
        /// Any mode.
        mode: u8,
        /// Any place.
        place: u64,
        /// Any length.
        len: u64,
        /// The record buffer.
        rec: Vec<u8>,
        /// The plaintext buffer.
        plain: Vec<u8>,
    },
    /// The nonce.
    Nonce {
        /// A layout that Open takes; the page gives no nonce for another.
        layout: u8,
        /// The key's IV.
        iv: Iv,
        /// The number.
        number: u64,
    },
}

impl FunctionCall {
    /// Which call it is.
    #[must_use]
    pub fn kind(&self) -> Kind {
        match self {
            FunctionCall::WrapData { .. } => Kind::WriteData,
            FunctionCall::ReadData { .. } => Kind::ReadData,
            FunctionCall::WrapRecord { .. } => Kind::WriteMessage,
            FunctionCall::ReadMessage { .. } => Kind::ReadMessage,
            FunctionCall::View { .. } | FunctionCall::Nonce { .. } => Kind::Plain,
        }
    }
}

/// Any call without a state.
pub fn function_call(rng: &mut Rng) -> FunctionCall {
    match rng.below(6) {
        0 => FunctionCall::WrapData {
            integrity: rng.one_in(2),
            kind: type_byte(rng),
            body: bytes(rng),
            out: bytes(rng),
        },
        1 => FunctionCall::ReadData {
            data: bytes_after(rng),
        },
        2 => FunctionCall::WrapRecord {
            rec: bytes(rng),
            out: bytes(rng),
        },
        3 => FunctionCall::ReadMessage {
            msg: bytes_after(rng),
        },
        4 => FunctionCall::View {
            mode: rng.pick(&[0, 0, 0, 1, 1, 1, 2, 255]),
            place: extent(rng),
            len: extent(rng),
            rec: bytes(rng),
            plain: bytes(rng),
        },
        _ => FunctionCall::Nonce {
            layout: rng.below(2) as u8,
            iv: rng.iv(),
            number: edge(rng),
        },
    }
}

/// Few bytes, so that a body and a buffer often differ by one or none.
fn bytes(rng: &mut Rng) -> Vec<u8> {
    let len = rng.below(12) as usize;
    rng.bytes(len)
}

/// A type byte and what follows it, or nothing.
fn bytes_after(rng: &mut Rng) -> Vec<u8> {
    if rng.one_in(12) {
        return Vec::new();
    }
    let mut data = vec![type_byte(rng)];
    data.extend(bytes(rng));
    data
}

fn type_byte(rng: &mut Rng) -> u8 {
    match rng.below(2) {
        0 => rng.pick(&[5, 6, 7, 0x7f, 0x80, 0x85, 0x86, 0x87, 0xff, 0]),
        _ => rng.word() as u8,
    }
}

/// A place or length, sometimes where a sum would wrap.
fn extent(rng: &mut Rng) -> u64 {
    match rng.below(6) {
        0 => u64::MAX - rng.below(12),
        1 => edge(rng),
        _ => rng.below(9),
    }
}
