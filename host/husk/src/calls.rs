//! The exported functions, each behind a safe one.
use crate::raw::{Built, Counted, Data, Iv, Offered, Receiver, ReceiverStep, Sender, SenderStep, Setting, Settled, Wrote};
use crate::raw::{Opened, Sent, Table, Taken};

/// A lent part as the boundary hands it back: where it starts and how long it is.
#[repr(C)]
struct Part {
    bytes: *const u8,
    len: usize,
}

/// The part that a function hands back, which lies in a slice that lives for `'a`.
///
/// # Safety
/// `call` sets its argument to such a part.
unsafe fn lent<'a>(call: impl FnOnce(*mut Part)) -> &'a [u8] {
    let mut part = Part { bytes: core::ptr::NonNull::dangling().as_ptr(), len: 0 };
    call(&mut part);
    core::slice::from_raw_parts(part.bytes, part.len)
}

type Bytes = *const u8;

#[rustfmt::skip]
extern "C" {
    fn husk_open_sender(setting: Setting, iv: Iv) -> SenderStep;
    fn husk_build(sender: Sender, app: Bytes, app_len: usize, random: Bytes, random_len: usize, out: *mut u8, out_len: usize) -> Built;
    fn husk_change_sender(sender: Sender, iv: Iv) -> SenderStep;
    fn husk_open_receiver(setting: Setting, iv: Iv) -> ReceiverStep;
    fn husk_gaps(receiver: Receiver, slot: u8) -> Counted;
    fn husk_offer(receiver: Receiver, rec: Bytes, rec_len: usize, slot: u8) -> Offered;
    fn husk_settle(receiver: Receiver, rec: Bytes, rec_len: usize, slot: u8, count: u32, number: u64, yes: u8, plain: Bytes, plain_len: usize) -> Settled;
    fn husk_change_receiver(receiver: Receiver, iv: Iv) -> ReceiverStep;
    fn husk_drop(receiver: Receiver) -> ReceiverStep;
    fn husk_view(mode: u8, place: u64, len: u64, rec: Bytes, rec_len: usize, plain: Bytes, plain_len: usize, out: *mut Part);
    fn husk_wrap_data(integrity: u8, kind: u8, body: Bytes, body_len: usize, out: *mut u8, out_len: usize) -> Wrote;
    fn husk_read_data(app: Bytes, app_len: usize) -> Data;
    fn husk_body_of(app: Bytes, app_len: usize, out: *mut Part);
    fn husk_wrap_record(rec: Bytes, rec_len: usize, out: *mut u8, out_len: usize) -> Wrote;
    fn husk_read_message(message: Bytes, message_len: usize) -> u8;
    fn husk_record_of(message: Bytes, message_len: usize, out: *mut Part);
    fn husk_table_open(table: *mut Table, setting: Setting, iv: Iv, iw: Iv) -> Opened;
    fn husk_table_close(table: *mut Table, row: u8) -> u8;
    fn husk_table_offer(table: *const Table, rec: Bytes, rec_len: usize, slot: u8) -> Offered;
    fn husk_table_settle(table: *mut Table, rec: Bytes, rec_len: usize, slot: u8, count: u32, number: u64, yes: u8, plain: Bytes, plain_len: usize) -> Taken;
    fn husk_table_build(table: *mut Table, row: u8, app: Bytes, app_len: usize, random: Bytes, random_len: usize, out: *mut u8, out_len: usize) -> Sent;
    fn husk_table_gaps(table: *const Table, row: u8, slot: u8) -> Counted;
    fn husk_table_change_receiver(table: *mut Table, row: u8, iv: Iv) -> u8;
    fn husk_table_change_sender(table: *mut Table, row: u8, iv: Iv) -> u8;
    fn husk_table_drop(table: *mut Table, row: u8) -> u8;
}

impl Sender {
    pub fn open(setting: Setting, iv: [u8; 12]) -> SenderStep {
        // SAFETY: plain data by value.
        unsafe { husk_open_sender(setting, Iv { bytes: iv }) }
    }

    pub fn build(self, app: &[u8], random: &[u8], out: &mut [u8]) -> Built {
        // SAFETY: each pointer comes with the length of its slice, and `out` is lent alone.
        unsafe { husk_build(self, app.as_ptr(), app.len(), random.as_ptr(), random.len(), out.as_mut_ptr(), out.len()) }
    }

    pub fn change_key(self, iv: [u8; 12]) -> SenderStep {
        // SAFETY: plain data by value.
        unsafe { husk_change_sender(self, Iv { bytes: iv }) }
    }
}

impl Receiver {
    pub fn open(setting: Setting, iv: [u8; 12]) -> ReceiverStep {
        // SAFETY: plain data by value.
        unsafe { husk_open_receiver(setting, Iv { bytes: iv }) }
    }

    pub fn gaps(self, slot: u8) -> Counted {
        // SAFETY: plain data by value.
        unsafe { husk_gaps(self, slot) }
    }

    pub fn offer(self, rec: &[u8], slot: u8) -> Offered {
        // SAFETY: the pointer comes with the length of its slice.
        unsafe { husk_offer(self, rec.as_ptr(), rec.len(), slot) }
    }

    pub fn settle(self, rec: &[u8], slot: u8, count: u32, number: u64, yes: u8, plain: &[u8]) -> Settled {
        // SAFETY: each pointer comes with the length of its slice.
        unsafe { husk_settle(self, rec.as_ptr(), rec.len(), slot, count, number, yes, plain.as_ptr(), plain.len()) }
    }

    pub fn change_key(self, iv: [u8; 12]) -> ReceiverStep {
        // SAFETY: plain data by value.
        unsafe { husk_change_receiver(self, Iv { bytes: iv }) }
    }

    pub fn drop_old(self) -> ReceiverStep {
        // SAFETY: plain data by value.
        unsafe { husk_drop(self) }
    }
}

impl Table {
    pub fn open(&mut self, setting: Setting, receive_iv: [u8; 12], send_iv: [u8; 12]) -> Opened {
        // SAFETY: the table is lent alone; the rest is plain data by value.
        unsafe { husk_table_open(self, setting, Iv { bytes: receive_iv }, Iv { bytes: send_iv }) }
    }

    pub fn close(&mut self, row: u8) -> u8 {
        // SAFETY: the table is lent alone.
        unsafe { husk_table_close(self, row) }
    }

    pub fn offer(&self, rec: &[u8], slot: u8) -> Offered {
        // SAFETY: the table is lent to be read, and the pointer comes with the length of its slice.
        unsafe { husk_table_offer(self, rec.as_ptr(), rec.len(), slot) }
    }

    pub fn settle(&mut self, rec: &[u8], slot: u8, count: u32, number: u64, yes: u8, plain: &[u8]) -> Taken {
        // SAFETY: the table is lent alone, and each pointer comes with the length of its slice.
        unsafe { husk_table_settle(self, rec.as_ptr(), rec.len(), slot, count, number, yes, plain.as_ptr(), plain.len()) }
    }

    pub fn build(&mut self, row: u8, app: &[u8], random: &[u8], out: &mut [u8]) -> Sent {
        // SAFETY: the table and `out` are each lent alone, and each pointer comes with the length of its slice.
        unsafe { husk_table_build(self, row, app.as_ptr(), app.len(), random.as_ptr(), random.len(), out.as_mut_ptr(), out.len()) }
    }

    pub fn gaps(&self, row: u8, slot: u8) -> Counted {
        // SAFETY: the table is lent to be read.
        unsafe { husk_table_gaps(self, row, slot) }
    }

    pub fn change_receiver(&mut self, row: u8, iv: [u8; 12]) -> u8 {
        // SAFETY: the table is lent alone; the rest is plain data by value.
        unsafe { husk_table_change_receiver(self, row, Iv { bytes: iv }) }
    }

    pub fn change_sender(&mut self, row: u8, iv: [u8; 12]) -> u8 {
        // SAFETY: the table is lent alone; the rest is plain data by value.
        unsafe { husk_table_change_sender(self, row, Iv { bytes: iv }) }
    }

    pub fn drop_old(&mut self, row: u8) -> u8 {
        // SAFETY: the table is lent alone.
        unsafe { husk_table_drop(self, row) }
    }
}

pub fn view<'a>(mode: u8, place: u64, len: u64, rec: &'a [u8], plain: &'a [u8]) -> &'a [u8] {
    // SAFETY: each pointer comes with the length of its slice, and the part lies in one of them.
    unsafe { lent(|part| husk_view(mode, place, len, rec.as_ptr(), rec.len(), plain.as_ptr(), plain.len(), part)) }
}

pub fn wrap_data(integrity: u8, kind: u8, body: &[u8], out: &mut [u8]) -> Wrote {
    // SAFETY: each pointer comes with the length of its slice, and `out` is lent alone.
    unsafe { husk_wrap_data(integrity, kind, body.as_ptr(), body.len(), out.as_mut_ptr(), out.len()) }
}

pub fn read_data(app: &[u8]) -> Data {
    // SAFETY: the pointer comes with the length of its slice.
    unsafe { husk_read_data(app.as_ptr(), app.len()) }
}

pub fn body_of(app: &[u8]) -> &[u8] {
    // SAFETY: the pointer comes with the length of its slice, and the part lies in it.
    unsafe { lent(|part| husk_body_of(app.as_ptr(), app.len(), part)) }
}

pub fn wrap_record(rec: &[u8], out: &mut [u8]) -> Wrote {
    // SAFETY: each pointer comes with the length of its slice, and `out` is lent alone.
    unsafe { husk_wrap_record(rec.as_ptr(), rec.len(), out.as_mut_ptr(), out.len()) }
}

pub fn read_message(message: &[u8]) -> u8 {
    // SAFETY: the pointer comes with the length of its slice.
    unsafe { husk_read_message(message.as_ptr(), message.len()) }
}

pub fn record_of(message: &[u8]) -> &[u8] {
    // SAFETY: the pointer comes with the length of its slice, and the part lies in it.
    unsafe { lent(|part| husk_record_of(message.as_ptr(), message.len(), part)) }
}
