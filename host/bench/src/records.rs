//! Records made before the clock runs, one behind the other in the order of their delivery.
use husk::raw::Sender;
use husk::{Setting, HEADER, MAC, ROWS};

pub const IV: [u8; 12] = [0, 1, 2, 3, 4, 5, 6, 7, 8, 9, 10, 11];

pub fn setting(mode: u8) -> Setting {
    Setting::new(mode, 0x1122_3344, u64::MAX)
}

/// The setting of a table's row: each has a Session ID of its own.
pub fn row_setting(mode: u8, row: usize) -> Setting {
    Setting { session: 0x1122_3344 + row as u32 * 0x0101_0101, ..setting(mode) }
}

/// The application data of a record of `len` bytes that has no random bytes.
pub fn app(mode: u8, len: usize) -> Vec<u8> {
    let inner = if mode == 0 { 0 } else { 2 };
    (0..len - HEADER - MAC - inner).map(|place| place as u8).collect()
}

/// Records of one mode and length.
pub struct Set {
    pub mode: u8,
    len: usize,
    bytes: Vec<u8>,
    /// What the cipher hands over for each of them: they differ in their numbers only.
    pub plain: Vec<u8>,
}

impl Set {
    /// One channel's records of these numbers, not encrypted and with a MAC of zeros.
    pub fn new(mode: u8, len: usize, numbers: &[u64]) -> Set {
        let senders = numbers.iter().map(|&number| (setting(mode), number));
        Set::of(mode, len, &senders.collect::<Vec<_>>())
    }

    /// So many records of a full table: the rows take turns, and each row's numbers are in order.
    pub fn in_turn(mode: u8, len: usize, count: usize) -> Set {
        let senders = (0..count).map(|place| (row_setting(mode, place % ROWS), (place / ROWS) as u64));
        Set::of(mode, len, &senders.collect::<Vec<_>>())
    }

    fn of(mode: u8, len: usize, senders: &[(Setting, u64)]) -> Set {
        let app = app(mode, len);
        let mut bytes = vec![0u8; len * senders.len()];
        let mut plain = Vec::new();
        for (rec, &(setting, number)) in bytes.chunks_exact_mut(len).zip(senders) {
            let sender = Sender { next: number, ..Sender::open(setting, IV).next };
            let built = sender.build(&app, &[], rec);
            assert_eq!((built.answer, built.total), (0, len as u64), "a record of {len} bytes is built");
            plain = rec[built.assoc as usize..built.text as usize].to_vec();
        }
        Set { mode, len, bytes, plain }
    }

    pub fn records(&self) -> impl Iterator<Item = &[u8]> {
        self.bytes.chunks_exact(self.len)
    }
}

/// The numbers from 0 on.
pub fn in_order(count: usize) -> Vec<u64> {
    (0..count as u64).collect()
}

/// Tens of deliveries: nine in order, and one that is late (taken) or repeated (refused). Which of
/// the two and at what distance is drawn, so that a processor does not simply learn the pattern.
pub fn one_in_ten(count: usize) -> Vec<u64> {
    let (mut numbers, mut next, mut draw) = (Vec::new(), 0, 0x9E37_79B9_7F4A_7C15u64);
    while numbers.len() < count {
        draw ^= draw << 13;
        draw ^= draw >> 7;
        draw ^= draw << 17;
        let (late, odd) = (draw & 1 == 1, next + (draw >> 1) % 8);
        let fresh = if late { 10 } else { 9 };
        numbers.extend((next..next + fresh).filter(|&number| !late || number != odd));
        numbers.push(odd);
        next += fresh;
    }
    numbers.truncate(count);
    numbers
}
