//! The record on the wire.

use crate::layout::Record;
use crate::refusal::Refusal;
use crate::setting::Setting;

/// The fields of a header after the Session ID. Profile 1 has no low bits.
#[derive(Clone, Copy)]
pub(super) struct Header {
    pub(super) low: Option<u16>,
    pub(super) length: u16,
}

/// Whether Open would refuse the setting.
#[inline]
pub(super) fn setting_is_bad(setting: &Setting) -> bool {
    let known_mac = matches!(setting.mac, 8 | 12 | 16);
    let known_width = matches!(setting.width, 64 | 128 | 192 | 256);
    let known = setting.mode <= 1 && setting.layout <= 1 && setting.profile <= 1;
    !(known && known_mac && known_width) || setting.limit == 0
}

/// Length of a record with neither data nor random bytes.
#[inline]
pub(super) fn smallest_length(setting: &Setting) -> usize {
    let mac = usize::from(setting.mac);
    if setting.mode == 0 {
        mac
    } else {
        mac + Record::DATA_LENGTH
    }
}

/// Reads the header, or refuses with Short, Session, Length or Small.
#[inline]
pub(super) fn read_header(rec: &[u8], setting: &Setting) -> Result<Header, Refusal> {
    let (session, header) = fields(rec, setting.profile).ok_or(Refusal::Short)?;
    let length = usize::from(header.length);
    if session != setting.session {
        return Err(Refusal::Session);
    }
    if rec.len() - Record::header(setting.profile) != length {
        return Err(Refusal::Length);
    }
    if length < smallest_length(setting) {
        return Err(Refusal::Small);
    }
    Ok(header)
}

/// The Session ID and the rest of the header, if the record has all of it.
#[inline]
fn fields(rec: &[u8], profile: u8) -> Option<(u32, Header)> {
    if profile == 0 {
        let word = u64::from_le_bytes(*rec.first_chunk()?);
        let (low, length) = (Some((word >> 32) as u16), (word >> 48) as u16);
        return Some((word as u32, Header { low, length }));
    }
    let (session, rest) = rec.split_first_chunk()?;
    let length = u16::from_le_bytes(*rest.first_chunk()?);
    let low = None;
    Some((u32::from_le_bytes(*session), Header { low, length }))
}

/// Writes the header and gives what lies behind it in the buffer.
#[inline]
pub(super) fn write_header<'a>(
    setting: &Setting,
    number: u64,
    length: u16,
    out: &'a mut [u8],
) -> &'a mut [u8] {
    let (head, rest) = out.split_at_mut(Record::header(setting.profile));
    let (session, fields) = head.split_at_mut(4);
    session.copy_from_slice(&setting.session.to_le_bytes());
    if setting.profile == 0 {
        let word = u32::from(number as u16) | u32::from(length) << 16;
        fields.copy_from_slice(&word.to_le_bytes());
    } else {
        fields.copy_from_slice(&length.to_le_bytes());
    }
    rest
}

/// The associated-data end and the text end, for a Length that is not Small.
#[inline]
pub(super) fn ends(setting: &Setting, length: u16) -> (u64, u64) {
    let header = Record::header(setting.profile) as u64;
    let text = header + u64::from(length) - u64::from(setting.mac);
    let assoc = if setting.mode == 0 { text } else { header };
    (assoc, text)
}

/// Place and length of the application data, or Inner. `sealed` is what lies
/// between header and MAC, and the plaintext is empty in mode 0 only.
#[inline]
pub(super) fn data_part(
    profile: u8,
    plain: &[u8],
    sealed: usize,
) -> Result<(usize, usize), Refusal> {
    let Some((field, rest)) = plain.split_first_chunk::<{ Record::DATA_LENGTH }>() else {
        return Ok((Record::header(profile), sealed));
    };
    let length = usize::from(u16::from_le_bytes(*field));
    if length > rest.len() {
        return Err(Refusal::Inner);
    }
    Ok((Record::DATA_LENGTH, length))
}
