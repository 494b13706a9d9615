//! The states as plain fields, good or bad, in the form they are compared in.

use crate::layout;
use crate::setting::{Iv, Setting};

/// A sender's state.
#[derive(Clone, Copy, Debug, Default, PartialEq, Eq, Hash)]
pub struct RawSender {
    /// The channel's setting.
    pub setting: Setting,
    /// Key count.
    pub count: u32,
    /// The next number to send.
    pub next: u64,
    /// IV of the key in use.
    pub iv: Iv,
}

/// The words of a window, the lowest first: bit i % 64 of word i / 64 set
/// means that E - 1 - i is marked.
pub type Marks = [u64; layout::Window::WORDS];

/// One receive key.
#[derive(Clone, Copy, Debug, Default, PartialEq, Eq, Hash)]
pub struct RawKey {
    /// IV of the key.
    pub iv: Iv,
    /// E: 0 when nothing is marked, else the highest marked number plus 1.
    pub next: u64,
    /// The window.
    pub marks: Marks,
}

/// A receiver's state.
#[derive(Clone, Copy, Debug, Default, PartialEq, Eq, Hash)]
pub struct RawReceiver {
    /// The channel's setting.
    pub setting: Setting,
    /// Key count of the current key.
    pub count: u32,
    /// The current key, slot 0.
    pub current: RawKey,
    /// Whether an old key is held.
    pub held: bool,
    /// The old key, slot 1; all zero when none is held.
    pub old: RawKey,
}

/// One row of a table; free when all of it is zero.
#[derive(Clone, Copy, Debug, Default, PartialEq, Eq, Hash)]
pub struct RawRow {
    /// The row's receiver, whose Session ID is the row's.
    pub receiver: RawReceiver,
    /// The row's sender.
    pub sender: RawSender,
}

/// A whole table.
pub type RawTable = [RawRow; layout::Table::ROWS];
