//! The record on the wire: offsets, Length, and the ends the cipher needs.

use super::digits::{digits_of, number_in};
use crate::layout::Record;
use crate::refusal::Refusal;
use crate::setting::Setting;

const DATA_LENGTH: u64 = Record::DATA_LENGTH as u64;

/// What a record's header says, once refusals 4 to 7 are past. Profile 1 has
/// no low bits.
pub(super) struct Header {
    pub(super) low: Option<u16>,
    pub(super) length: u64,
}

/// Reads the header, or refuses with Short, Session, Length or Small.
pub(super) fn read_header(rec: &[u8], setting: &Setting) -> Result<Header, Refusal> {
    let header = header_length(setting);
    Refusal::Short.when((rec.len() as u64) < header)?;
    let session = number_in(&rec[0..4]);
    let (low, length) = match setting.profile {
        0 => (Some(number_in(&rec[4..6]) as u16), number_in(&rec[6..8])),
        _ => (None, number_in(&rec[4..6])),
    };
    Refusal::Session.when(session != u64::from(setting.session))?;
    Refusal::Length.when(rec.len() as u64 != header + length)?;
    Refusal::Small.when(length < smallest_length(setting))?;
    Ok(Header { low, length })
}

/// How many bytes come before those that Length counts.
pub(super) fn header_length(setting: &Setting) -> u64 {
    Record::header(setting.profile) as u64
}

/// Length of a record without data or random bytes.
fn smallest_length(setting: &Setting) -> u64 {
    let mac = u64::from(setting.mac);
    if setting.mode == 0 {
        mac
    } else {
        DATA_LENGTH + mac
    }
}

/// Length for P bytes of data and R random ones. Wide, so that no pair of
/// slice lengths can wrap it.
pub(super) fn length_for(setting: &Setting, data: usize, random: usize) -> u128 {
    u128::from(smallest_length(setting)) + data as u128 + random as u128
}

/// The associated-data end and the text end. In mode 0 all before the MAC is
/// associated data and the text is empty; in mode 1 the header alone is.
pub(super) fn ends(setting: &Setting, length: u64) -> (u64, u64) {
    let header = header_length(setting);
    let before_mac = header + length - u64::from(setting.mac);
    if setting.mode == 0 {
        (before_mac, before_mac)
    } else {
        (header, before_mac)
    }
}

/// How many bytes of plaintext the cipher gives back for this Length.
pub(super) fn plain_length(setting: &Setting, length: u64) -> u64 {
    if setting.mode == 0 {
        0
    } else {
        length - u64::from(setting.mac)
    }
}

/// Place and length of the application data, or Inner.
pub(super) fn data_part(
    setting: &Setting,
    length: u64,
    plain: &[u8],
) -> Result<(u64, u64), Refusal> {
    let most = length - smallest_length(setting);
    if setting.mode == 0 {
        return Ok((header_length(setting), most));
    }
    let data = number_in(&plain[0..2]);
    Refusal::Inner.when(data > most)?;
    Ok((DATA_LENGTH, data))
}

/// All of a record but its MAC.
pub(super) fn unsealed(
    setting: &Setting,
    number: u64,
    length: u64,
    data: &[u8],
    random: &[u8],
) -> Vec<u8> {
    let mut bytes = digits_of(u64::from(setting.session), 4);
    if setting.profile == 0 {
        bytes.extend(digits_of(number, 2));
    }
    bytes.extend(digits_of(length, 2));
    if setting.mode == 1 {
        bytes.extend(digits_of(data.len() as u64, 2));
    }
    bytes.extend(data);
    bytes.extend(random);
    bytes
}
