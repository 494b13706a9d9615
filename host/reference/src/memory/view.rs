//! The part of a lent buffer that Settle handed out.

/// The application data: of the plaintext buffer in mode 1, of the record
/// buffer in mode 0; empty for any other mode, or where it does not fit.
#[must_use]
pub fn view<'a>(mode: u8, place: u64, len: u64, rec: &'a [u8], plain: &'a [u8]) -> &'a [u8] {
    let buffer = match mode {
        0 => rec,
        1 => plain,
        _ => return &[],
    };
    // Wide, so that a place and length near 2^64 cannot wrap into the buffer.
    let end = u128::from(place) + u128::from(len);
    if end > buffer.len() as u128 {
        return &[];
    }
    &buffer[place as usize..end as usize]
}
