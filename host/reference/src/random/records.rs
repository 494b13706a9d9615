//! Records for a receiver: sound ones, and damaged, cut or forged ones.

use super::numbers::near;
use super::rng::Rng;
use crate::layout::Record;
use crate::raw::RawReceiver;
use crate::setting::Setting;

/// A record of the setting's profile with these fields in its header (low in
/// profile 0 only) and random bytes behind it.
pub fn record(rng: &mut Rng, setting: &Setting, low: u16, length: u16) -> Vec<u8> {
    let mut rec = Vec::with_capacity(Record::HEADER + usize::from(length) + 8);
    rec.extend(setting.session.to_le_bytes());
    if setting.profile == 0 {
        rec.extend(low.to_le_bytes());
    }
    rec.extend(length.to_le_bytes());
    rec.extend(rng.bytes(usize::from(length)));
    rec
}

/// A record that is laid out well, with a number near the slot's E.
pub fn sound_record(rng: &mut Rng, state: &RawReceiver, slot: u8) -> Vec<u8> {
    let key = if slot == 1 {
        &state.old
    } else {
        &state.current
    };
    let setting = &state.setting;
    let low = near(rng, key.next, setting.width) as u16;
    let length = length(rng, setting.mac);
    record(rng, setting, low, length)
}

/// A record, damaged about once in four times.
pub fn any_record(rng: &mut Rng, state: &RawReceiver, slot: u8) -> Vec<u8> {
    let mut rec = sound_record(rng, state, slot);
    if rng.one_in(4) {
        damage(rng, &state.setting, &mut rec);
    }
    rec
}

/// Cuts, lengthens or forges a record.
pub fn damage(rng: &mut Rng, setting: &Setting, rec: &mut Vec<u8>) {
    let len = rec.len();
    match rng.below(7) {
        0 => rec.truncate(rng.below(len as u64 + 1) as usize),
        1 => rec.truncate(rng.below(Record::HEADER as u64 + 2) as usize),
        2 => rec.truncate(len.saturating_sub(1)),
        3 => rec.push(rng.word() as u8),
        4 => forge_length(rng, Record::header(setting.profile), rec),
        5 => flip(rng, rec, 4),
        _ => flip(rng, rec, len),
    }
}

/// Another Length, with or without the bytes to match it.
fn forge_length(rng: &mut Rng, header: usize, rec: &mut Vec<u8>) {
    let length = match rng.below(12) {
        0 => u16::MAX,
        1 => 24,
        _ => rng.below(20) as u16,
    };
    if let Some(field) = rec.get_mut(header - 2..header) {
        field.copy_from_slice(&length.to_le_bytes());
    }
    if length < 100 && rng.one_in(2) {
        rec.resize(header + usize::from(length), 0);
    }
}

/// One bit among the first bytes.
fn flip(rng: &mut Rng, rec: &mut [u8], first: usize) {
    let end = first.min(rec.len()) as u64;
    if end > 0 {
        rec[rng.below(end) as usize] ^= 1 << rng.below(8);
    }
}

/// A Length field, most often around the smallest ones for this MAC.
fn length(rng: &mut Rng, mac: u8) -> u16 {
    let mac = u16::from(mac);
    match rng.below(2_000) {
        0 => rng.pick(&[65_533, 65_534, 65_535]),
        1..=150 => rng.below(20) as u16,
        151..=900 => mac + rng.below(5) as u16,
        _ => mac + 2 + rng.below(60) as u16,
    }
}

/// A plaintext buffer for a record: mostly of the right length, and in mode 1
/// with a data length around what fits.
pub fn plain_for(rng: &mut Rng, setting: &Setting, rec: &[u8]) -> Vec<u8> {
    let around = Record::header(setting.profile) + usize::from(setting.mac);
    let sealed = rec.len().saturating_sub(around);
    let right = if setting.mode == 0 { 0 } else { sealed };
    let len = match rng.below(24) {
        0 => right + 1,
        1 => right.saturating_sub(1),
        2 => rng.below(40) as usize,
        _ => right,
    };
    let mut plain = rng.bytes(len);
    let fits = len.saturating_sub(Record::DATA_LENGTH) as u64;
    let data = match rng.below(10) {
        0 => fits + 1,
        1 => rng.word(),
        2..=4 => fits,
        _ => rng.below(fits + 1),
    };
    if let Some(field) = plain.get_mut(..Record::DATA_LENGTH) {
        field.copy_from_slice(&(data as u16).to_le_bytes());
    }
    plain
}
