//! SPDM secured records over MCTP: a safe, `no_std` face of the proved record layer.
//!
//! A [`Sender`] builds records, a [`Receiver`] reads them. The cipher is the host's: it runs between
//! [`Receiver::offer`] and [`Receiver::settle`], and after [`Sender::build`]. Every call answers for
//! every state value, record, length and slot; a refusal is an `Err` with its number and name, changes
//! no buffer, and keeps the state (but [`Refusal::Inner`], which marks its number). A [`Controller`] has
//! the same calls for up to sixteen channels in one table.
//!
//! ```text
//! let offered = receiver.offer(record, husk::CURRENT)?;
//! let yes = cipher.open(key, &offered.nonce, &record[..offered.assoc], ..);
//! let data = receiver.settle(record, husk::CURRENT, offered.count, offered.number, yes, plain)?;
//! ```
#![no_std]
#![deny(missing_docs)]

#[cfg(feature = "std")]
extern crate std;

#[allow(missing_docs)]
mod calls;
mod controller;
pub mod raw;
mod receiver;
mod refusal;
mod sender;
mod setting;
pub mod wrapping;

pub use controller::Controller;
pub use raw::Setting;
pub use receiver::{Offered, Receiver};
pub use refusal::Refusal;
pub use sender::{Built, Sender};

/// The slot of the current receive key.
pub const CURRENT: u8 = 0;
/// The slot of the old receive key.
pub const OLD: u8 = 1;
/// Mode 0: message authentication only.
pub const AUTHENTICATED: u8 = 0;
/// Mode 1: encryption and authentication.
pub const ENCRYPTED: u8 = 1;
/// Layout 0: of the 12 bytes that are XORed with the IV and make a nonce, the first 8 hold the record's
/// number, little-endian, and the others are zeros.
pub const LAYOUT_LITTLE: u8 = 0;
/// Layout 1, the second maker's: zeros, and the number big-endian in the last 8. Number 0 has the same nonce
/// in both layouts, so between ends that differ record 0 passes and the cipher refuses those after it.
pub const LAYOUT_BIG: u8 = 1;
/// Profile 0, for a bus: a record's header holds the Session ID, the low 16 bits of the number, and Length.
pub const PROFILE_BUS: u8 = 0;
/// Profile 1, for the test bench's cable: the header holds the Session ID and Length. Each record has the
/// next number, so the transport must keep order, lose nothing and repeat nothing: after one lost record the
/// cipher refuses all that follow under that key. [`Refusal::Old`] and [`Refusal::Repeat`] do not occur; a
/// record delivered again is [`Refusal::Mac`], and one offer settled twice is [`Refusal::Stale`], or
/// [`Refusal::Spent`] at the limit.
pub const PROFILE_BENCH: u8 = 1;
/// The length of a record's header with [`PROFILE_BUS`].
pub const HEADER: usize = 8;
/// The length of a record's header with [`PROFILE_BENCH`]. A table has no row for a shorter record.
pub const BENCH_HEADER: usize = 6;
/// How many bytes a record's MAC may have. Between ends that differ no record passes: one too small for the
/// receiver's MAC is [`Refusal::Small`], and the cipher refuses the others.
pub const MACS: [u8; 3] = [8, 12, 16];
/// The usual length of a record's MAC, and the longest.
pub const MAC: usize = 16;
/// How many numbers below the next a receive window may remember: as far as records may overtake each other. One
/// that comes later than that is [`Refusal::Old`]. No record depends on it: a sender has it because both ends have
/// the same setting.
pub const WIDTHS: [u16; 4] = [64, 128, 192, 256];
/// The usual width of a receive window, and the narrowest.
pub const WIDTH: u16 = 64;
/// How many rows a controller's table has.
pub const ROWS: usize = 16;
