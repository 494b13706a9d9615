//! The fixed lengths of page 01 and of the table, as constants of the type
//! they belong to.

/// Lengths of a record on the wire.
#[derive(Clone, Copy, Debug)]
pub struct Record;

impl Record {
    /// The header of profile 0: Session ID, partial number and Length.
    pub const HEADER: usize = 8;
    /// The header of profile 1: Session ID and Length.
    pub const BENCH_HEADER: usize = 6;
    /// The lengths that Open takes for the authentication code at the end.
    pub const MACS: [u8; 3] = [8, 12, 16];
    /// The application data length field, mode 1 only.
    pub const DATA_LENGTH: usize = 2;
    /// The largest value of the Length field.
    pub const LARGEST: usize = 65_535;

    /// Length of the header in a profile.
    #[must_use]
    pub const fn header(profile: u8) -> usize {
        if profile == 0 {
            Record::HEADER
        } else {
            Record::BENCH_HEADER
        }
    }
}

/// Sizes of the receive window.
#[derive(Clone, Copy, Debug)]
pub struct Window;

impl Window {
    /// The widths that Open takes: how many numbers below E the window knows.
    pub const WIDTHS: [u16; 4] = [64, 128, 192, 256];
    /// How many 64-bit words a window has, whatever its width.
    pub const WORDS: usize = 4;
    /// How many bits these words have.
    pub const BITS: u16 = 256;
}

/// Bytes of the MCTP wrapping.
#[derive(Clone, Copy, Debug)]
pub struct Mctp;

impl Mctp {
    /// The message type of a secured record, and the type barred inside one.
    pub const SECURED: u8 = 6;
    /// The top bit of the first data byte.
    pub const INTEGRITY: u8 = 0x80;
    /// The highest type that seven bits hold.
    pub const HIGHEST_TYPE: u8 = 127;
}

/// Size of a table of channels.
#[derive(Clone, Copy, Debug)]
pub struct Table;

impl Table {
    /// How many rows a table has, free ones too.
    pub const ROWS: usize = 16;
    /// The shortest record that is looked up; its row may still find it Short.
    pub const SHORTEST: usize = Record::BENCH_HEADER;
}
