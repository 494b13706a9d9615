//! Sixteen channels in one table, each with a receiver and a sender of the
//! plain version. Records find their row by Session ID; all other calls name
//! it. The rules are read off the table as plain fields, once for each call.

use crate::answers::{Built, Offered, Opened, Settled};
use crate::layout;
use crate::memory::{setting_is_bad, Receiver, Sender};
use crate::raw::{RawRow, RawTable};
use crate::refusal::Refusal;
use crate::setting::{Iv, Setting};

/// The plain table.
#[derive(Clone, Debug)]
pub struct Table {
    rows: [Row; Table::ROWS],
}

/// Both directions of one channel. A free row's two are all zeros.
#[derive(Clone, Debug)]
struct Row {
    receiver: Receiver,
    sender: Sender,
}

impl Row {
    fn from_raw(raw: RawRow) -> Self {
        Row {
            receiver: Receiver::from_raw(raw.receiver),
            sender: Sender::from_raw(raw.sender),
        }
    }

    fn raw(&self) -> RawRow {
        RawRow {
            receiver: self.receiver.raw(),
            sender: self.sender.raw(),
        }
    }
}

impl Default for Table {
    /// A table with every row free.
    fn default() -> Self {
        Table::from_raw(RawTable::default())
    }
}

impl Table {
    /// How many rows there are.
    pub const ROWS: usize = layout::Table::ROWS;

    /// Takes a table from outside, good or bad.
    #[must_use]
    pub fn from_raw(raw: RawTable) -> Self {
        let rows = raw.map(Row::from_raw);
        Table { rows }
    }

    /// The table as plain fields.
    #[must_use]
    pub fn raw(&self) -> RawTable {
        self.rows.each_ref().map(Row::raw)
    }

    /// Opens both directions of a channel in the lowest free row and answers
    /// which row that is.
    pub fn open(&mut self, setting: Setting, receiver_iv: Iv, sender_iv: Iv) -> Opened {
        self.try_open(setting, receiver_iv, sender_iv)
            .unwrap_or_else(Opened::from)
    }

    /// Makes an open row free again, whatever is in it.
    pub fn close(&mut self, row: u8) -> u8 {
        match self.open_row(row) {
            Ok(row) => {
                *row = Row::from_raw(RawRow::default());
                0
            }
            Err(refusal) => refusal.number(),
        }
    }

    /// Offers a record to the row with its Session ID. Changes nothing.
    #[must_use]
    pub fn offer(&self, rec: &[u8], slot: u8) -> Offered {
        match self.place_for(rec) {
            Ok(place) => self.rows[place].receiver.offer(rec, slot),
            Err(refusal) => refusal.into(),
        }
    }

    /// Settles a record in the row with its Session ID.
    pub fn settle(
        &mut self,
        rec: &[u8],
        slot: u8,
        count: u32,
        number: u64,
        passed: bool,
        plain: &[u8],
    ) -> Settled {
        match self.place_for(rec) {
            Ok(place) => {
                let receiver = &mut self.rows[place].receiver;
                receiver.settle(rec, slot, count, number, passed, plain)
            }
            Err(refusal) => refusal.into(),
        }
    }

    /// Builds a record with the row's sender.
    pub fn build(&mut self, row: u8, app: &[u8], random: &[u8], out: &mut [u8]) -> Built {
        match self.open_row(row) {
            Ok(row) => row.sender.build(app, random, out),
            Err(refusal) => refusal.into(),
        }
    }

    /// The gap count of a key of the row's receiver.
    #[must_use]
    pub fn gaps(&self, row: u8, slot: u8) -> (u8, u32) {
        match self.place_of(row) {
            Ok(place) => self.rows[place].receiver.gaps(slot),
            Err(refusal) => (refusal.number(), 0),
        }
    }

    /// The key change of the row's receiver.
    pub fn change_receiver_key(&mut self, row: u8, iv: Iv) -> u8 {
        match self.open_row(row) {
            Ok(row) => row.receiver.change_key(iv),
            Err(refusal) => refusal.number(),
        }
    }

    /// The key change of the row's sender.
    pub fn change_sender_key(&mut self, row: u8, iv: Iv) -> u8 {
        match self.open_row(row) {
            Ok(row) => row.sender.change_key(iv),
            Err(refusal) => refusal.number(),
        }
    }

    /// Drop: the row's receiver forgets its old key.
    pub fn drop_old(&mut self, row: u8) -> u8 {
        match self.open_row(row) {
            Ok(row) => row.receiver.drop_old(),
            Err(refusal) => refusal.number(),
        }
    }

    fn try_open(
        &mut self,
        setting: Setting,
        receiver_iv: Iv,
        sender_iv: Iv,
    ) -> Result<Opened, Refusal> {
        let table = self.good()?;
        Refusal::Setting.when(setting_is_bad(&setting))?;
        Refusal::Twice.when(place_with(&table, setting.session).is_some())?;
        let place = table.iter().position(row_is_free).ok_or(Refusal::Rows)?;
        let (_, receiver) = Receiver::open(setting, receiver_iv);
        let (_, sender) = Sender::open(setting, sender_iv);
        self.rows[place] = Row { receiver, sender };
        Ok(Opened {
            answer: 0,
            row: place as u8,
        })
    }

    /// The table as plain fields, or State.
    fn good(&self) -> Result<RawTable, Refusal> {
        let table = self.raw();
        Refusal::State.when(table_is_bad(&table))?;
        Ok(table)
    }

    /// Where the open row with this number is, or State or Unknown.
    fn place_of(&self, row: u8) -> Result<usize, Refusal> {
        let table = self.good()?;
        let place = usize::from(row);
        match table.get(place) {
            Some(row) if !row_is_free(row) => Ok(place),
            _ => Err(Refusal::Unknown),
        }
    }

    /// The open row with this number, or State or Unknown.
    fn open_row(&mut self, row: u8) -> Result<&mut Row, Refusal> {
        let place = self.place_of(row)?;
        Ok(&mut self.rows[place])
    }

    /// Where the row for this record is, or State, Short or Unknown.
    fn place_for(&self, rec: &[u8]) -> Result<usize, Refusal> {
        let table = self.good()?;
        Refusal::Short.when(rec.len() < layout::Table::SHORTEST)?;
        let session = u32::from_le_bytes([rec[0], rec[1], rec[2], rec[3]]);
        place_with(&table, session).ok_or(Refusal::Unknown)
    }
}

/// A table that every call refuses: two open rows share a Session ID, or a
/// row's receiver and sender have different ones.
#[must_use]
pub fn table_is_bad(table: &RawTable) -> bool {
    let mut met = Vec::new();
    for row in table.iter().filter(|row| !row_is_free(row)) {
        let session = row.receiver.setting.session;
        if session != row.sender.setting.session || met.contains(&session) {
            return true;
        }
        met.push(session);
    }
    false
}

/// A row is free when all of it is zero, and open otherwise.
#[must_use]
pub fn row_is_free(row: &RawRow) -> bool {
    *row == RawRow::default()
}

/// Where the open row with this Session ID is.
fn place_with(table: &RawTable, session: u32) -> Option<usize> {
    table
        .iter()
        .position(|row| !row_is_free(row) && row.receiver.setting.session == session)
}
