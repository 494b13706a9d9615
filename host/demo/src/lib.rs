//! A bay of sixteen boards over a simulated bus, with real records under AES-256-GCM.
//!
//! Nine boards hang, and the bridge goes on delivering their last record, whose MAC is good. The
//! controller hands each record out once: the nine go dark. Of the others one is a second maker's, with
//! another layout of nonces, one is of the first series, with a shorter MAC, one passes the 16-bit turn of
//! its numbers, one changes its key while records of the old one are late, one is fed forged records, one has
//! a wide window for a burst whose records overtake each other, and some have a bus that loses and reorders.
//!
//! Before them a board on the test bench speaks over an ordered cable, with the profile whose records say no
//! number: all are handed out until one is lost, and then none till the key is changed.
//!
//! [`Board`], [`Bridge`] and [`Bus`] are the simulated side. [`Controller`] and [`Element`] are what a
//! bay controller would have: one table with a row for each board, and the cipher between its two calls.
#![deny(missing_docs)]
#![forbid(unsafe_code)]

mod bay;
mod bench;
mod board;
mod bridge;
mod bus;
mod controller;
mod element;
mod plan;
mod reading;
mod rng;
mod secret;
mod sheet;

pub use bay::{Bay, PERIOD, PERIODS};
pub use bench::{Bench, Report};
pub use board::Board;
pub use bridge::Bridge;
pub use bus::{Bus, Fate, Forgery};
pub use controller::Controller;
pub use element::{Element, Tally};
pub use plan::{Plan, BURST, KT1, OLD_MAC, PLANS, WIDE};
pub use reading::Reading;
pub use rng::Rng;
pub use secret::Secret;
pub use sheet::{Row, Sheet};

/// How many elements a bay has.
pub const ELEMENTS: usize = 16;

/// The whole story: the bench's report, and then the bay's sheet. There each period begins with a poll, and
/// the sheet is that of the end of the last one.
///
/// # Errors
/// A call was refused that the story needs.
pub fn run() -> Result<String, husk::Refusal> {
    let report = Bench::new()?.run()?;
    let mut bay = Bay::new()?;
    for _ in 0..PERIODS {
        bay.poll();
        bay.period()?;
    }
    Ok(format!("{report}{}", Sheet::of(bay.controller())?))
}
