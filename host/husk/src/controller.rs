//! The controller: the channels of up to sixteen boards in one table.
use crate::raw::{self, view, Setting};
use crate::{Built, Offered, Refusal};

/// A table of sixteen rows, each free or with one receiver and one sender of one Session ID. A record
/// reaches the row that has its Session ID; every other call names its row, 0 to 15, and a call changes
/// its row and no other. Each is refused with [`Refusal::State`] first where two open rows share a
/// Session ID or a row's two differ, which no call leads to.
///
/// The host gives a channel that is opened its own keys and IVs: a reopened row needs ones that no earlier
/// channel of that row and no other row has used, since its numbers begin at 0 again.
#[derive(Clone, Debug, Default, PartialEq, Eq)]
pub struct Controller {
    table: raw::Table,
}

impl Controller {
    /// A table with every row free.
    pub fn new() -> Controller {
        Controller::default()
    }

    /// A new channel: a receiver and a sender of this setting in the lowest free row. Answers the row.
    /// [`Refusal::Setting`], [`Refusal::Twice`], [`Refusal::Rows`].
    pub fn open(&mut self, setting: Setting, receive_iv: [u8; 12], send_iv: [u8; 12]) -> Result<u8, Refusal> {
        let opened = self.table.open(setting, receive_iv, send_iv);
        Refusal::answer(opened.answer).map(|()| opened.row)
    }

    /// The row is free again, whatever is in it. [`Refusal::Unknown`].
    pub fn close(&mut self, row: u8) -> Result<(), Refusal> {
        Refusal::answer(self.table.close(row))
    }

    /// What the cipher is to check of a record, by the row that has its Session ID. It changes nothing.
    /// [`Refusal::Short`], below [`crate::BENCH_HEADER`], and [`Refusal::Unknown`] come before what that row
    /// itself says, which may be Short of its own header.
    pub fn offer(&self, rec: &[u8], slot: u8) -> Result<Offered, Refusal> {
        Offered::of(self.table.offer(rec, slot))
    }

    /// What the cipher said of an offered record: with a yes its number is marked, and its data is
    /// handed out, a part of `plain`, or of `rec` in mode 0, where `plain` is empty.
    /// [`Refusal::Short`] and [`Refusal::Unknown`] come before what the row itself says.
    pub fn settle<'a>(
        &mut self,
        rec: &'a [u8],
        slot: u8,
        count: u32,
        number: u64,
        yes: bool,
        plain: &'a [u8],
    ) -> Result<&'a [u8], Refusal> {
        let taken = self.table.settle(rec, slot, count, number, u8::from(yes), plain);
        // Plain refuses a text in mode 0 and an empty one in mode 1, so its length says the mode.
        let mode = u8::from(!plain.is_empty());
        Refusal::answer(taken.answer).map(|()| view(mode, taken.place, taken.length, rec, plain))
    }

    /// Writes all of a record but its MAC at the start of `out`, with the row's sender. The number is
    /// spent, whatever the cipher then does. [`Refusal::Unknown`] comes before what the row itself says.
    pub fn build(&mut self, row: u8, app: &[u8], random: &[u8], out: &mut [u8]) -> Result<Built, Refusal> {
        let sent = self.table.build(row, app, random, out);
        Refusal::answer(sent.answer).map(|()| Built {
            number: sent.number,
            nonce: sent.nonce,
            assoc: sent.assoc as usize,
            text: sent.text as usize,
            total: sent.total as usize,
        })
    }

    /// How many of the last numbers are missing under the key of the row's slot.
    pub fn gaps(&self, row: u8, slot: u8) -> Result<u32, Refusal> {
        let counted = self.table.gaps(row, slot);
        Refusal::answer(counted.answer).map(|()| counted.gaps)
    }

    /// A new receive key of the row: the current one becomes the old one, with its window.
    pub fn change_receiver(&mut self, row: u8, iv: [u8; 12]) -> Result<(), Refusal> {
        Refusal::answer(self.table.change_receiver(row, iv))
    }

    /// A new send key of the row: its IV, and the numbers from 0 again.
    pub fn change_sender(&mut self, row: u8, iv: [u8; 12]) -> Result<(), Refusal> {
        Refusal::answer(self.table.change_sender(row, iv))
    }

    /// Forgets the old receive key of the row. The host decides when (KT1).
    pub fn drop_old(&mut self, row: u8) -> Result<(), Refusal> {
        Refusal::answer(self.table.drop_old(row))
    }

    /// The table as it lies in memory, to be kept across a restart.
    pub fn state(&self) -> raw::Table {
        self.table
    }

    /// A controller with this table. Any value is taken; the calls refuse what they never lead to.
    pub fn from_state(table: raw::Table) -> Controller {
        Controller { table }
    }
}
