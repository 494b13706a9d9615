//! The whole number behind the 16 bits on the wire.

const TURN: i128 = 65_536;
const HALF: i128 = 32_768;

/// Of the whole numbers from E - 32768 to E + 32767 the one with these low
/// 16 bits, and 65536 more if that one is negative. It may pass 64 bits, and
/// is then above every limit.
#[must_use]
pub fn number_of(next: u64, low: u16) -> i128 {
    let lowest = i128::from(next) - HALF;
    let number = lowest + (i128::from(low) - lowest).rem_euclid(TURN);
    if number < 0 {
        number + TURN
    } else {
        number
    }
}
