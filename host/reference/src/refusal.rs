//! The numbers of refusal.

/// Why a call was refused, with its number: 1 to 21 are page 01's, the rest
/// the table's.
#[derive(Clone, Copy, Debug, PartialEq, Eq, Hash, PartialOrd, Ord)]
#[repr(u8)]
pub enum Refusal {
    /// The state given is one that no call returns.
    State = 1,
    /// A choice that Open does not know, or L = 0.
    Setting = 2,
    /// Slot above 1, or the old key wanted with none held.
    Key = 3,
    /// Record shorter than its header.
    Short = 4,
    /// Session ID differs.
    Session = 5,
    /// Record is not its header and Length bytes.
    Length = 6,
    /// Length too small for the mode and the MAC.
    Small = 7,
    /// The number is not below L.
    Spent = 8,
    /// Further below E than the window is wide.
    Old = 9,
    /// Marked already.
    Repeat = 10,
    /// Key count or number differs from the one worked out now.
    Stale = 11,
    /// The plaintext buffer has the wrong length.
    Plain = 12,
    /// The cipher said no.
    Mac = 13,
    /// The data length inside does not fit; the number is marked.
    Inner = 14,
    /// Random bytes in mode 0.
    Padding = 15,
    /// Length would pass 65,535.
    Size = 16,
    /// The output buffer is too short.
    Room = 17,
    /// An old key is still held.
    Held = 18,
    /// The key count is at its end.
    Epochs = 19,
    /// The inner type is barred or missing.
    Wrapped = 20,
    /// Not a secured MCTP message.
    Frame = 21,
    /// The Session ID is in an open row already.
    Twice = 22,
    /// No row is free.
    Rows = 23,
    /// No open row has that Session ID, or the row is free or beyond the last.
    Unknown = 24,
}

impl Refusal {
    /// Every refusal of page 01, in the order of the numbers.
    pub const ALL: [Refusal; 21] = [
        Refusal::State,
        Refusal::Setting,
        Refusal::Key,
        Refusal::Short,
        Refusal::Session,
        Refusal::Length,
        Refusal::Small,
        Refusal::Spent,
        Refusal::Old,
        Refusal::Repeat,
        Refusal::Stale,
        Refusal::Plain,
        Refusal::Mac,
        Refusal::Inner,
        Refusal::Padding,
        Refusal::Size,
        Refusal::Room,
        Refusal::Held,
        Refusal::Epochs,
        Refusal::Wrapped,
        Refusal::Frame,
    ];

    /// The refusals that only a table of channels adds.
    pub const TABLE: [Refusal; 3] = [Refusal::Twice, Refusal::Rows, Refusal::Unknown];

    /// The number that a call answers.
    #[must_use]
    pub const fn number(self) -> u8 {
        self as u8
    }

    /// The refusal with this number, if there is one.
    #[must_use]
    pub fn from_number(number: u8) -> Option<Refusal> {
        let mut all = Refusal::ALL.into_iter().chain(Refusal::TABLE);
        all.find(|r| r.number() == number)
    }

    /// Refuses for this reason when `wrong` holds, so that checks read as a list.
    pub(crate) fn when(self, wrong: bool) -> Result<(), Refusal> {
        if wrong {
            Err(self)
        } else {
            Ok(())
        }
    }
}

/// The answer number of a call that has nothing else to say.
pub(crate) fn answer_of(result: Result<(), Refusal>) -> u8 {
    result.map_or_else(Refusal::number, |()| 0)
}
