//! A table's rows as the words that they lie in, in the order of crates/rows/specs/Ends.antt: one word for
//! each number, but mode, layout, the MAC's length, the profile and the window's width share one.
use husk::raw;
use reference::random::Rng;
use reference::{Iv, RawKey, RawReceiver, RawRow, RawSender, RawTable, Setting};

/// Where the sender's words begin.
const SENDER: usize = 19;

/// The words of a row.
type Words = [u64; 26];

/// How many bits of each word are its number's; those above are read by no call.
#[rustfmt::skip]
const BITS: [u32; 26] = [
    48, 32, 64, 32,
    64, 32, 64, 64, 64, 64, 64,
    1,
    64, 32, 64, 64, 64, 64, 64,
    48, 32, 64, 32, 64, 64, 32,
];

fn iv_words(iv: Iv) -> [u64; 2] {
    let mut halves = [[0; 8]; 2];
    halves[0].copy_from_slice(&iv[..8]);
    halves[1][..4].copy_from_slice(&iv[8..]);
    halves.map(u64::from_le_bytes)
}

fn iv_of(words: &[u64]) -> Iv {
    let mut iv = [0; 12];
    iv[..8].copy_from_slice(&words[0].to_le_bytes());
    iv[8..].copy_from_slice(&words[1].to_le_bytes()[..4]);
    iv
}

fn setting_words(s: Setting) -> [u64; 3] {
    let [low, high] = s.width.to_le_bytes();
    let kind = u64::from_le_bytes([s.mode, s.layout, s.mac, s.profile, low, high, 0, 0]);
    [kind, s.session.into(), s.limit]
}

fn setting_of(words: &[u64]) -> Setting {
    let [mode, layout, mac, profile, low, high, ..] = words[0].to_le_bytes();
    let width = u16::from_le_bytes([low, high]);
    Setting { mode, layout, mac, profile, width, session: words[1] as u32, limit: words[2] }
}

fn key_words(key: &RawKey) -> [u64; 7] {
    let [first, last] = iv_words(key.iv);
    let [a, b, c, d] = key.marks;
    [first, last, key.next, a, b, c, d]
}

fn key_of(words: &[u64]) -> RawKey {
    RawKey { iv: iv_of(words), next: words[2], marks: [words[3], words[4], words[5], words[6]] }
}

fn row_words(row: &RawRow) -> Words {
    let (r, s) = (&row.receiver, &row.sender);
    let receiver = setting_words(r.setting).into_iter().chain([r.count.into()]).chain(key_words(&r.current));
    let old = [r.held.into()].into_iter().chain(key_words(&r.old));
    let sender = setting_words(s.setting).into_iter().chain([s.count.into(), s.next]).chain(iv_words(s.iv));
    let mut words = [0; 26];
    for (word, number) in words.iter_mut().zip(receiver.chain(old).chain(sender)) {
        *word = number;
    }
    words
}

fn row_of(words: &Words) -> RawRow {
    let (receiver, sender) = words.split_at(SENDER);
    RawRow {
        receiver: RawReceiver {
            setting: setting_of(receiver),
            count: receiver[3] as u32,
            current: key_of(&receiver[4..]),
            held: receiver[11] & 1 == 1,
            old: key_of(&receiver[12..]),
        },
        sender: RawSender {
            setting: setting_of(sender),
            count: sender[3] as u32,
            next: sender[4],
            iv: iv_of(&sender[5..]),
        },
    }
}

/// The words of a table.
pub fn words(table: &RawTable) -> raw::Table {
    raw::Table { rows: table.each_ref().map(row_words) }
}

/// The table of these words.
pub fn rows(table: &raw::Table) -> RawTable {
    table.rows.each_ref().map(row_of)
}

/// Random bits above the numbers of some words.
pub fn smudge(rng: &mut Rng, table: &mut raw::Table) {
    for row in &mut table.rows {
        for (word, bits) in row.iter_mut().zip(BITS) {
            if bits < 64 && rng.one_in(2) {
                *word ^= rng.word() << bits;
            }
        }
    }
}
