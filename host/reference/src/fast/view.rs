//! The part of a lent buffer that Settle handed out.

/// The application data: of the plaintext buffer in mode 1, of the record
/// buffer in mode 0; empty for any other mode, or where it does not fit.
#[inline]
#[must_use]
pub fn view<'a>(mode: u8, place: u64, len: u64, rec: &'a [u8], plain: &'a [u8]) -> &'a [u8] {
    let buffer = match mode {
        0 => rec,
        1 => plain,
        _ => return &[],
    };
    part(buffer, place, len).unwrap_or_default()
}

#[inline]
fn part(buffer: &[u8], place: u64, len: u64) -> Option<&[u8]> {
    let start = usize::try_from(place).ok()?;
    let end = start.checked_add(usize::try_from(len).ok()?)?;
    buffer.get(start..end)
}
