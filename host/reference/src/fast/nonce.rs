//! The per-record nonce.

use crate::setting::{Iv, Nonce};

/// The IV with the number XORed into its last 8 bytes, big-endian, in layout
/// 1, and into its first 8, little-endian, otherwise.
#[inline]
#[must_use]
pub fn nonce(layout: u8, iv: &Iv, number: u64) -> Nonce {
    let mut nonce = *iv;
    // Both places are fixed, so that each is one 8-byte step.
    match layout {
        1 => xor(&mut nonce[4..], number.to_be_bytes()),
        _ => xor(&mut nonce[..8], number.to_le_bytes()),
    }
    nonce
}

#[inline]
fn xor(bytes: &mut [u8], digits: [u8; 8]) {
    for (byte, digit) in bytes.iter_mut().zip(digits) {
        *byte ^= digit;
    }
}
