//! The per-record nonce.

use super::digits::digits_of;
use crate::setting::{Iv, Nonce};

/// The number in 8 bytes, XORed with the IV: little-endian with 4 zeros after
/// it in layout 0, big-endian with 4 zeros before it in layout 1. No call asks
/// for another layout, and one is taken as 0.
#[must_use]
pub fn nonce(layout: u8, iv: &Iv, number: u64) -> Nonce {
    // Twelve digits of a 64-bit number: the highest four are always zero.
    let mut digits = digits_of(number, iv.len());
    if layout == 1 {
        digits.reverse();
    }
    let mut nonce = *iv;
    for (byte, digit) in nonce.iter_mut().zip(digits) {
        *byte ^= digit;
    }
    nonce
}
