//! The refusals, by page 01's numbers and names, and the table's three.
use core::fmt;

/// Why a call was refused.
#[repr(u8)]
#[derive(Clone, Copy, Debug, PartialEq, Eq, Hash, PartialOrd, Ord)]
pub enum Refusal {
    /// The state is none that the calls return.
    State = 1,
    /// Mode, layout or profile above 1, a MAC length that is none of [`crate::MACS`], or a limit of 0.
    Setting = 2,
    /// No such key slot, or no old key.
    Key = 3,
    /// The record is shorter than its profile's header.
    Short = 4,
    /// Another Session ID.
    Session = 5,
    /// The record is not its profile's header and Length bytes.
    Length = 6,
    /// Length is too small for the setting's MAC.
    Small = 7,
    /// The number is not below the limit.
    Spent = 8,
    /// The number lies behind the window.
    Old = 9,
    /// The number was marked before.
    Repeat = 10,
    /// Key count or number is not the one worked out now; on the bench also one offer settled twice.
    Stale = 11,
    /// The plaintext buffer has another length than the text.
    Plain = 12,
    /// The cipher said no.
    Mac = 13,
    /// The data length inside passes the text; the number is marked.
    Inner = 14,
    /// Random bytes in mode 0.
    Padding = 15,
    /// Length would pass 65,535.
    Size = 16,
    /// The output buffer is too short.
    Room = 17,
    /// An old key is still held.
    Held = 18,
    /// The key count is at its maximum.
    Epochs = 19,
    /// Type 6 inside, empty data, or a type above 127.
    Wrapped = 20,
    /// Not a message with a record.
    Frame = 21,
    /// An open row has that Session ID.
    Twice = 22,
    /// No row is free.
    Rows = 23,
    /// No open row has that Session ID or that number.
    Unknown = 24,
}

const ALL: [Refusal; 24] = [
    Refusal::State,
    Refusal::Setting,
    Refusal::Key,
    Refusal::Short,
    Refusal::Session,
    Refusal::Length,
    Refusal::Small,
    Refusal::Spent,
    Refusal::Old,
    Refusal::Repeat,
    Refusal::Stale,
    Refusal::Plain,
    Refusal::Mac,
    Refusal::Inner,
    Refusal::Padding,
    Refusal::Size,
    Refusal::Room,
    Refusal::Held,
    Refusal::Epochs,
    Refusal::Wrapped,
    Refusal::Frame,
    Refusal::Twice,
    Refusal::Rows,
    Refusal::Unknown,
];

impl Refusal {
    /// Its number.
    pub fn number(self) -> u8 {
        self as u8
    }

    /// The refusal with this number, if there is one.
    pub fn of(number: u8) -> Option<Refusal> {
        ALL.get(usize::from(number).wrapping_sub(1)).copied()
    }

    /// An answer as a result: 0 is no refusal.
    pub(crate) fn answer(number: u8) -> Result<(), Refusal> {
        match Refusal::of(number) {
            Some(refusal) => Err(refusal),
            None => Ok(()),
        }
    }
}

impl fmt::Display for Refusal {
    fn fmt(&self, f: &mut fmt::Formatter<'_>) -> fmt::Result {
        write!(f, "refused: {:?} ({})", self, self.number())
    }
}

#[cfg(feature = "std")]
impl std::error::Error for Refusal {}
