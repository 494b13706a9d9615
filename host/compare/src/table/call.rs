//! One call of a table, and what comes of it in both programs.
use crate::setting_in;
use husk::raw;
use reference::layout::Record;
use reference::random::{any_setting, good_setting, sender_call, Mailbox, ReceiverCall, Rng, SenderCall};
use reference::table::row_is_free;
use reference::{Built, Iv, Offered, Opened, RawTable, Setting, Settled, Table};

/// A call with all that it is given. `Receive` and `Send` are those of a row; a record goes by its
/// Session ID.
#[derive(Clone, Debug)]
pub enum Call {
    /// Open.
    Open(Setting, Iv, Iv),
    /// Close.
    Close(u8),
    /// Gaps, Offer, Settle, the receiver's key change and Drop.
    Receive(u8, ReceiverCall),
    /// Build and the sender's key change.
    Send(u8, SenderCall),
}

/// What a call answered, and the output buffer after it.
#[derive(Clone, Debug, PartialEq, Eq)]
pub enum Answer {
    /// Open's answer.
    Opened(Opened),
    /// A number alone.
    Only(u8),
    /// The gap count.
    Counted(u8, u32),
    /// Offer's answer.
    Offered(Offered),
    /// Settle's answer, and the data that is handed out.
    Settled(Settled, Vec<u8>),
    /// Build's answer, and the buffer.
    Built(Built, Vec<u8>),
}

impl Answer {
    /// The answer number.
    pub fn number(&self) -> u8 {
        match self {
            Answer::Only(answer) | Answer::Counted(answer, _) => *answer,
            Answer::Opened(opened) => opened.answer,
            Answer::Offered(offered) => offered.answer,
            Answer::Settled(settled, _) => settled.answer,
            Answer::Built(built, _) => built.answer,
        }
    }
}

impl Call {
    /// The names of the nine calls.
    pub const NAMES: [&'static str; 9] =
        ["open", "close", "offer", "settle", "build", "gaps", "change receiver", "change sender", "drop"];

    /// Which of the nine it is.
    pub fn kind(&self) -> usize {
        match self {
            Call::Open(..) => 0,
            Call::Close(_) => 1,
            Call::Receive(_, ReceiverCall::Offer { .. }) => 2,
            Call::Receive(_, ReceiverCall::Settle { .. }) => 3,
            Call::Send(_, SenderCall::Build { .. }) => 4,
            Call::Receive(_, ReceiverCall::Gaps { .. }) => 5,
            Call::Receive(_, ReceiverCall::ChangeKey { .. }) => 6,
            Call::Send(_, SenderCall::ChangeKey { .. }) => 7,
            Call::Receive(_, ReceiverCall::DropOld) => 8,
        }
    }

    /// Any of the nine on this table. New channels have one of these Session IDs.
    pub fn any(rng: &mut Rng, table: &RawTable, sessions: &[u32], mailbox: &mut Mailbox) -> Call {
        let row = any_row(rng, table);
        let state = table.get(usize::from(row)).copied().unwrap_or_default();
        match rng.below(32) {
            0..=4 => {
                let mut setting = if rng.one_in(8) { any_setting(rng) } else { good_setting(rng) };
                setting.session = rng.pick(sessions);
                Call::Open(setting, rng.iv(), rng.iv())
            }
            5 => Call::Close(row),
            6 => Call::Send(row, largest(rng, &state.sender.setting)),
            7..=10 => Call::Send(row, sender_call(rng, &state.sender)),
            _ => Call::Receive(row, mailbox.next_call(rng, &state.receiver)),
        }
    }

    /// The call in the reference.
    pub fn in_reference(&self, table: &mut Table) -> Answer {
        match self {
            Call::Open(setting, iv, iw) => Answer::Opened(table.open(*setting, *iv, *iw)),
            Call::Close(row) => Answer::Only(table.close(*row)),
            Call::Receive(row, ReceiverCall::Gaps { slot }) => {
                let (answer, gaps) = table.gaps(*row, *slot);
                Answer::Counted(answer, gaps)
            }
            Call::Receive(_, ReceiverCall::Offer { rec, slot }) => Answer::Offered(table.offer(rec, *slot)),
            Call::Receive(_, ReceiverCall::Settle { rec, slot, count, number, passed, plain }) => {
                let mode = mode_for(&table.raw(), rec);
                let settled = table.settle(rec, *slot, *count, *number, *passed, plain);
                let data = reference::memory::view(mode, settled.place, settled.length, rec, plain);
                Answer::Settled(settled, data.to_vec())
            }
            Call::Receive(row, ReceiverCall::ChangeKey { iv }) => Answer::Only(table.change_receiver_key(*row, *iv)),
            Call::Receive(row, ReceiverCall::DropOld) => Answer::Only(table.drop_old(*row)),
            Call::Send(row, SenderCall::Build { app, random, out }) => {
                let mut out = out.clone();
                let built = table.build(*row, app, random, &mut out);
                Answer::Built(built, out)
            }
            Call::Send(row, SenderCall::ChangeKey { iv }) => Answer::Only(table.change_sender_key(*row, *iv)),
        }
    }

    /// The call in the proved table. `no` is the byte for a cipher that said no.
    pub fn in_husk(&self, table: &mut raw::Table, no: u8) -> Answer {
        match self {
            Call::Open(setting, iv, iw) => {
                let raw::Opened { answer, row } = table.open(setting_in(*setting), *iv, *iw);
                Answer::Opened(Opened { answer, row })
            }
            Call::Close(row) => Answer::Only(table.close(*row)),
            Call::Receive(row, ReceiverCall::Gaps { slot }) => {
                let counted = table.gaps(*row, *slot);
                Answer::Counted(counted.answer, counted.gaps)
            }
            Call::Receive(_, ReceiverCall::Offer { rec, slot }) => {
                let raw::Offered { answer, count, number, nonce, assoc, text } = table.offer(rec, *slot);
                Answer::Offered(Offered { answer, count, number, nonce, assoc, text })
            }
            Call::Receive(_, ReceiverCall::Settle { rec, slot, count, number, passed, plain }) => {
                let yes = if *passed { 1 } else { no };
                let raw::Taken { answer, place, length } = table.settle(rec, *slot, *count, *number, yes, plain);
                let mode = u8::from(!plain.is_empty());
                let data = raw::view(mode, place, length, rec, plain);
                Answer::Settled(Settled { answer, place, length }, data.to_vec())
            }
            Call::Receive(row, ReceiverCall::ChangeKey { iv }) => Answer::Only(table.change_receiver(*row, *iv)),
            Call::Receive(row, ReceiverCall::DropOld) => Answer::Only(table.drop_old(*row)),
            Call::Send(row, SenderCall::Build { app, random, out }) => {
                let mut out = out.clone();
                let raw::Sent { answer, number, nonce, assoc, text, total } = table.build(*row, app, random, &mut out);
                Answer::Built(Built { answer, number, nonce, assoc, text, total }, out)
            }
            Call::Send(row, SenderCall::ChangeKey { iv }) => Answer::Only(table.change_sender(*row, *iv)),
        }
    }
}

/// Mostly the number of an open row.
fn any_row(rng: &mut Rng, table: &RawTable) -> u8 {
    let open: Vec<u8> = (0..16).filter(|&row| !row_is_free(&table[usize::from(row)])).collect();
    match rng.below(16) {
        0 => rng.pick(&[16, 17, 128, 255]),
        1 => rng.below(16) as u8,
        _ if open.is_empty() => 0,
        _ => rng.pick(&open),
    }
}

/// A Build of the largest record of this setting, or of one byte more; other calls seldom come so far.
fn largest(rng: &mut Rng, setting: &Setting) -> SenderCall {
    let inner = if setting.mode == 0 { 0 } else { Record::DATA_LENGTH };
    let data = Record::LARGEST - usize::from(setting.mac) - inner + rng.below(2) as usize;
    let room = Record::header(setting.profile) + Record::LARGEST;
    SenderCall::Build { app: rng.bytes(data), random: Vec::new(), out: rng.bytes(room) }
}

/// The mode of the row that a record is for.
fn mode_for(table: &RawTable, rec: &[u8]) -> u8 {
    let session = |id: u32| rec.get(..4) == Some(&id.to_le_bytes()[..]);
    let row = table.iter().find(|row| !row_is_free(row) && session(row.receiver.setting.session));
    row.map_or(0, |row| row.receiver.setting.mode)
}
