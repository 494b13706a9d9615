//! Delivery into a table of sixteen channels.

use super::receiver::Receiver;
use super::sender::Sender;
use crate::answers::{Offered, Settled};
use crate::layout;
use crate::raw::{RawRow, RawTable};
use crate::refusal::Refusal;

/// The quick table.
#[derive(Clone, Debug, PartialEq, Eq)]
pub struct Table {
    rows: [Row; Table::ROWS],
}

/// Both directions of one channel; a free row's are all zeros.
#[derive(Clone, Debug, PartialEq, Eq)]
struct Row {
    receiver: Receiver,
    sender: Sender,
}

/// What each row is found by: the Session ID of an open row, and for a free
/// one a number above all Session IDs that no other row has.
type Names = [u64; Table::ROWS];

impl Row {
    fn from_raw(raw: RawRow) -> Self {
        Row {
            receiver: Receiver::from_raw(raw.receiver),
            sender: Sender::from_raw(raw.sender),
        }
    }

    fn raw(&self) -> RawRow {
        RawRow {
            receiver: self.receiver.raw(),
            sender: self.sender.raw(),
        }
    }

    /// Whether all of the row is zero. A row in use has a limit, so the rest
    /// is seldom looked at.
    #[inline]
    fn is_free(&self) -> bool {
        self.receiver.setting().limit == 0 && self.raw() == RawRow::default()
    }
}

impl Table {
    /// How many rows there are.
    pub const ROWS: usize = layout::Table::ROWS;

    /// Takes a table from outside, good or bad.
    #[must_use]
    pub fn from_raw(raw: RawTable) -> Self {
        let rows = raw.map(Row::from_raw);
        Table { rows }
    }

    /// The table as plain fields.
    #[must_use]
    pub fn raw(&self) -> RawTable {
        self.rows.each_ref().map(Row::raw)
    }

    /// Offers a record to the row with its Session ID. Changes nothing.
    #[inline]
    #[must_use]
    pub fn offer(&self, rec: &[u8], slot: u8) -> Offered {
        match self.place_for(rec) {
            Ok(place) => self.rows[place].receiver.offer(rec, slot),
            Err(refusal) => refusal.into(),
        }
    }

    /// Settles a record in the row with its Session ID.
    #[inline]
    pub fn settle(
        &mut self,
        rec: &[u8],
        slot: u8,
        count: u32,
        number: u64,
        passed: bool,
        plain: &[u8],
    ) -> Settled {
        match self.place_for(rec) {
            Ok(place) => {
                let receiver = &mut self.rows[place].receiver;
                receiver.settle(rec, slot, count, number, passed, plain)
            }
            Err(refusal) => refusal.into(),
        }
    }

    /// Where the row for this record is, or State, Short or Unknown.
    #[inline]
    fn place_for(&self, rec: &[u8]) -> Result<usize, Refusal> {
        let names = self.names()?;
        let Some(&[a, b, c, d, ..]) = rec.first_chunk::<{ layout::Table::SHORTEST }>() else {
            return Err(Refusal::Short);
        };
        let session = u32::from_le_bytes([a, b, c, d]);
        let place = names.iter().position(|&name| name == u64::from(session));
        place.ok_or(Refusal::Unknown)
    }

    /// What each row is found by, or State.
    #[inline]
    fn names(&self) -> Result<Names, Refusal> {
        let mut names = [0; Table::ROWS];
        let mut differ = false;
        for (place, (name, row)) in names.iter_mut().zip(&self.rows).enumerate() {
            let session = row.receiver.setting().session;
            differ |= session != row.sender.setting().session;
            *name = if row.is_free() {
                1 << 32 | place as u64
            } else {
                u64::from(session)
            };
        }
        if differ || any_twice(&names) {
            return Err(Refusal::State);
        }
        Ok(names)
    }
}

/// Whether two rows have the same name. Without an early end, so that the
/// pairs can be compared several at once.
#[inline]
fn any_twice(names: &Names) -> bool {
    let mut twice = false;
    for step in 1..Table::ROWS {
        for (one, other) in names.iter().zip(&names[step..]) {
            twice |= one == other;
        }
    }
    twice
}
