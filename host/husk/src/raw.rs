//! The boundary itself: the structs as they lie in memory, and its calls by value, with the answer's
//! number as it is. A state may hold any value; a call on one that no call returned answers 1, State.
//! [`crate::Sender`] and [`crate::Receiver`] keep the state and turn numbers into results. A [`Table`] is
//! changed in place; [`crate::Controller`] does the same for it.
#![allow(missing_docs)]

pub use crate::calls::{body_of, read_data, read_message, record_of, view, wrap_data, wrap_record};

/// What both ends of a channel need alike; [`Setting::new`] makes the usual one.
#[repr(C)]
#[derive(Clone, Copy, Debug, Default, PartialEq, Eq)]
pub struct Setting {
    /// [`crate::AUTHENTICATED`] or [`crate::ENCRYPTED`].
    pub mode: u8,
    /// How a number makes a nonce: [`crate::LAYOUT_LITTLE`] or [`crate::LAYOUT_BIG`].
    pub layout: u8,
    /// How many bytes a MAC has: one of [`crate::MACS`].
    pub mac: u8,
    /// What a header holds: [`crate::PROFILE_BUS`] or [`crate::PROFILE_BENCH`].
    pub profile: u8,
    /// How many numbers a receive window remembers: one of [`crate::WIDTHS`].
    pub width: u16,
    /// The Session ID.
    pub session: u32,
    /// Each key's numbers are those below it.
    pub limit: u64,
}

#[repr(C)]
#[derive(Clone, Copy, Debug, Default, PartialEq, Eq)]
pub struct Iv {
    pub bytes: [u8; 12],
}

/// Bit i % 64 of word i / 64 is set where the number `next` - 1 - i is marked; those at the setting's width and
/// beyond are 0.
#[repr(C)]
#[derive(Clone, Copy, Debug, Default, PartialEq, Eq)]
pub struct Marks {
    pub words: [u64; 4],
}

#[repr(C)]
#[derive(Clone, Copy, Debug, Default, PartialEq, Eq)]
pub struct Window {
    pub next: u64,
    pub marks: Marks,
}

#[repr(C)]
#[derive(Clone, Copy, Debug, Default, PartialEq, Eq)]
pub struct Key {
    pub iv: [u8; 12],
    pub window: Window,
}

#[repr(C)]
#[derive(Clone, Copy, Debug, Default, PartialEq, Eq)]
pub struct Sender {
    pub setting: Setting,
    pub count: u32,
    pub next: u64,
    pub iv: [u8; 12],
}

#[repr(C)]
#[derive(Clone, Copy, Debug, Default, PartialEq, Eq)]
pub struct SenderStep {
    pub answer: u8,
    pub next: Sender,
}

#[repr(C)]
#[derive(Clone, Copy, Debug, Default, PartialEq, Eq)]
pub struct Built {
    pub answer: u8,
    pub number: u64,
    pub nonce: [u8; 12],
    pub assoc: u64,
    pub text: u64,
    pub total: u64,
    pub next: Sender,
}

#[repr(C)]
#[derive(Clone, Copy, Debug, Default, PartialEq, Eq)]
pub struct Receiver {
    pub setting: Setting,
    pub count: u32,
    pub current: Key,
    pub held: bool,
    pub old: Key,
}

#[repr(C)]
#[derive(Clone, Copy, Debug, Default, PartialEq, Eq)]
pub struct ReceiverStep {
    pub answer: u8,
    pub next: Receiver,
}

#[repr(C)]
#[derive(Clone, Copy, Debug, Default, PartialEq, Eq)]
pub struct Counted {
    pub answer: u8,
    pub gaps: u32,
}

#[repr(C)]
#[derive(Clone, Copy, Debug, Default, PartialEq, Eq)]
pub struct Offered {
    pub answer: u8,
    pub count: u32,
    pub number: u64,
    pub nonce: [u8; 12],
    pub assoc: u64,
    pub text: u64,
}

#[repr(C)]
#[derive(Clone, Copy, Debug, Default, PartialEq, Eq)]
pub struct Settled {
    pub answer: u8,
    pub place: u64,
    pub length: u64,
    pub next: Receiver,
}

#[repr(C)]
#[derive(Clone, Copy, Debug, Default, PartialEq, Eq)]
pub struct Wrote {
    pub answer: u8,
    pub length: u64,
}

#[repr(C)]
#[derive(Clone, Copy, Debug, Default, PartialEq, Eq)]
pub struct Data {
    pub answer: u8,
    pub integrity: bool,
    pub kind: u8,
}

/// The words of sixteen rows; a free row is all zeros.
#[repr(C)]
#[derive(Clone, Copy, Debug, Default, PartialEq, Eq)]
pub struct Table {
    pub rows: [[u64; 26]; 16],
}

#[repr(C)]
#[derive(Clone, Copy, Debug, Default, PartialEq, Eq)]
pub struct Opened {
    pub answer: u8,
    pub row: u8,
}

#[repr(C)]
#[derive(Clone, Copy, Debug, Default, PartialEq, Eq)]
pub struct Taken {
    pub answer: u8,
    pub place: u64,
    pub length: u64,
}

#[repr(C)]
#[derive(Clone, Copy, Debug, Default, PartialEq, Eq)]
pub struct Sent {
    pub answer: u8,
    pub number: u64,
    pub nonce: [u8; 12],
    pub assoc: u64,
    pub text: u64,
    pub total: u64,
}
