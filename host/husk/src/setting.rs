//! The setting of a channel.
use crate::raw::Setting;
use crate::{BENCH_HEADER, HEADER, LAYOUT_LITTLE, MAC, PROFILE_BENCH, PROFILE_BUS, WIDTH};

impl Setting {
    /// The usual setting, in [`LAYOUT_LITTLE`] and [`PROFILE_BUS`], with a MAC of [`MAC`] bytes and a window of
    /// [`WIDTH`] numbers: for a channel of this mode and Session ID, whose keys have the numbers below `limit`
    /// each. Both ends need the same. For a board of another kind change that field:
    /// `Setting { mac: 8, ..Setting::new(mode, session, limit) }`.
    pub const fn new(mode: u8, session: u32, limit: u64) -> Setting {
        Setting { mode, layout: LAYOUT_LITTLE, mac: MAC as u8, profile: PROFILE_BUS, width: WIDTH, session, limit }
    }

    /// How many bytes a record's header has.
    pub const fn header(&self) -> usize {
        match self.profile {
            PROFILE_BENCH => BENCH_HEADER,
            _ => HEADER,
        }
    }
}
