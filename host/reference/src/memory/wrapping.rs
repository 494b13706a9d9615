//! The MCTP wrapping around application data and around a record.

use crate::layout::Mctp;
use crate::refusal::Refusal;

/// Writes the type byte and the body. Answers the length written.
pub fn wrap_data(integrity: bool, kind: u8, body: &[u8], out: &mut [u8]) -> (u8, u64) {
    if kind == Mctp::SECURED || kind > Mctp::HIGHEST_TYPE {
        return (Refusal::Wrapped.number(), 0);
    }
    let top = if integrity { Mctp::INTEGRITY } else { 0 };
    write(top + kind, body, out)
}

/// Reads the type byte: answer, E-IC and the encapsulated type.
#[must_use]
pub fn read_data(data: &[u8]) -> (u8, bool, u8) {
    match data.first() {
        Some(&byte) if byte % 128 != Mctp::SECURED => (0, byte >= 128, byte % 128),
        _ => (Refusal::Wrapped.number(), false, 0),
    }
}

/// The body behind the type byte, empty where reading is refused.
#[must_use]
pub fn body_of(data: &[u8]) -> &[u8] {
    if read_data(data).0 == 0 {
        &data[1..]
    } else {
        &[]
    }
}

/// Writes an MCTP message around a record. Answers the length written.
pub fn wrap_record(rec: &[u8], out: &mut [u8]) -> (u8, u64) {
    write(Mctp::SECURED, rec, out)
}

/// Reads the message type of an MCTP message.
#[must_use]
pub fn read_message(msg: &[u8]) -> u8 {
    if msg.first() == Some(&Mctp::SECURED) {
        0
    } else {
        Refusal::Frame.number()
    }
}

/// The record in an MCTP message, empty where reading is refused.
#[must_use]
pub fn record_of(msg: &[u8]) -> &[u8] {
    if read_message(msg) == 0 {
        &msg[1..]
    } else {
        &[]
    }
}

/// One byte and what follows it, or Room. Nothing past it is touched.
fn write(first: u8, rest: &[u8], out: &mut [u8]) -> (u8, u64) {
    let bytes: Vec<u8> = std::iter::once(first).chain(rest.iter().copied()).collect();
    if out.len() < bytes.len() {
        return (Refusal::Room.number(), 0);
    }
    out[..bytes.len()].copy_from_slice(&bytes);
    (0, bytes.len() as u64)
}
