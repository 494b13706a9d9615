//! The MCTP wrapping around application data and around a record.

use crate::layout::Mctp;
use crate::refusal::Refusal;

/// Writes the type byte and the body. Answers the length written.
#[inline]
pub fn wrap_data(integrity: bool, kind: u8, body: &[u8], out: &mut [u8]) -> (u8, u64) {
    if kind == Mctp::SECURED || kind > Mctp::HIGHEST_TYPE {
        return (Refusal::Wrapped.number(), 0);
    }
    write(u8::from(integrity) << 7 | kind, body, out)
}

/// Reads the type byte: answer, E-IC and the encapsulated type.
#[inline]
#[must_use]
pub fn read_data(data: &[u8]) -> (u8, bool, u8) {
    match split_data(data) {
        Some((first, _)) => (0, first & Mctp::INTEGRITY != 0, first & !Mctp::INTEGRITY),
        None => (Refusal::Wrapped.number(), false, 0),
    }
}

/// The body behind the type byte, empty where reading is refused.
#[inline]
#[must_use]
pub fn body_of(data: &[u8]) -> &[u8] {
    split_data(data).map_or(&[], |(_, body)| body)
}

/// Writes an MCTP message around a record. Answers the length written.
#[inline]
pub fn wrap_record(rec: &[u8], out: &mut [u8]) -> (u8, u64) {
    write(Mctp::SECURED, rec, out)
}

/// Reads the message type of an MCTP message.
#[inline]
#[must_use]
pub fn read_message(msg: &[u8]) -> u8 {
    match msg {
        [Mctp::SECURED, ..] => 0,
        _ => Refusal::Frame.number(),
    }
}

/// The record in an MCTP message, empty where reading is refused.
#[inline]
#[must_use]
pub fn record_of(msg: &[u8]) -> &[u8] {
    match msg {
        [Mctp::SECURED, rec @ ..] => rec,
        _ => &[],
    }
}

/// The type byte and the body, unless reading is refused.
#[inline]
fn split_data(data: &[u8]) -> Option<(u8, &[u8])> {
    let (&first, body) = data.split_first()?;
    (first & !Mctp::INTEGRITY != Mctp::SECURED).then_some((first, body))
}

/// One byte and what follows it, or Room. Nothing past it is touched.
#[inline]
fn write(first: u8, rest: &[u8], out: &mut [u8]) -> (u8, u64) {
    let Some(out) = out.get_mut(..rest.len() + 1) else {
        return (Refusal::Room.number(), 0);
    };
    out[0] = first;
    out[1..].copy_from_slice(rest);
    (0, out.len() as u64)
}
