//! Little-endian fields as base-256 digits, the lowest first.

/// The number that the bytes write.
pub(super) fn number_in(bytes: &[u8]) -> u64 {
    bytes
        .iter()
        .rev()
        .fold(0, |high, &byte| high * 256 + u64::from(byte))
}

/// The lowest `width` digits of the number.
pub(super) fn digits_of(mut number: u64, width: usize) -> Vec<u8> {
    let mut digits = Vec::with_capacity(width);
    for _ in 0..width {
        digits.push((number % 256) as u8);
        number /= 256;
    }
    digits
}
