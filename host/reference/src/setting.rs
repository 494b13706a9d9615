//! What both ends of a channel must agree on, and the bytes of a key's IV.

/// The 12-byte IV of one key.
pub type Iv = [u8; 12];

/// The 12-byte nonce of one record.
pub type Nonce = [u8; 12];

/// The setting given to Open. Its fields are free, since a call must also
/// answer for a bad setting.
#[derive(Clone, Copy, Debug, Default, PartialEq, Eq, Hash)]
pub struct Setting {
    /// 0 is authentication only, 1 is encryption and authentication.
    pub mode: u8,
    /// Nonce layout: 0 has the number little-endian in the first 8 bytes, 1
    /// big-endian in the last 8.
    pub layout: u8,
    /// Bytes of the MAC: 8, 12 or 16.
    pub mac: u8,
    /// 0 has the partial number in its header; 1, for the bench cable, has not.
    pub profile: u8,
    /// How many numbers below E the window remembers: 64, 128, 192 or 256.
    pub width: u16,
    /// Session ID of the channel.
    pub session: u32,
    /// Record limit L: usable numbers are 0 to L - 1 for each key.
    pub limit: u64,
}

impl Setting {
    /// A setting as page 01 alone has it: nonce layout 0, 16 MAC bytes, the
    /// partial number in the header, and a window of 64 numbers.
    #[must_use]
    pub const fn new(mode: u8, session: u32, limit: u64) -> Self {
        Setting {
            mode,
            layout: 0,
            mac: 16,
            profile: 0,
            width: 64,
            session,
            limit,
        }
    }
}
