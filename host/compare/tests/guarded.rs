//! No call reads or writes a byte beyond its slices: each buffer ends right before, or begins right behind,
//! a page that may not be touched, so a stray access ends the test.
use compare::table::words;
use compare::{setting_in, Husk};
use husk::raw;
use reference::random::{any_receiver, any_sender, any_setting, any_table};
use reference::random::{receiver_call, sender_call, ReceiverCall, Rng, SenderCall};
use reference::version::{ReceiverCalls, SenderCalls, Version};
use std::ffi::c_void;

const PAGE: usize = 65_536;
const READ_WRITE: i32 = 3;
const PRIVATE_ANONYMOUS: i32 = 0x22;

extern "C" {
    fn mmap(at: *mut c_void, len: usize, protection: i32, flags: i32, file: i32, offset: i64) -> *mut c_void;
    fn mprotect(at: *mut c_void, len: usize, protection: i32) -> i32;
}

/// Room for a buffer between two pages that may not be touched.
struct Guarded {
    room: *mut u8,
    len: usize,
}

impl Guarded {
    fn new(len: usize) -> Guarded {
        // SAFETY: a fresh mapping of this test's own; the first and the last page are then shut.
        unsafe {
            let at = mmap(std::ptr::null_mut(), len + 2 * PAGE, READ_WRITE, PRIVATE_ANONYMOUS, -1, 0);
            assert_ne!(at as isize, -1);
            assert_eq!(mprotect(at, PAGE, 0), 0);
            assert_eq!(mprotect(at.cast::<u8>().add(PAGE + len).cast(), PAGE, 0), 0);
            Guarded { room: at.cast::<u8>().add(PAGE), len }
        }
    }

    /// A copy of the bytes that ends (or begins) at a shut page.
    fn hold(&mut self, bytes: &[u8], at_end: bool) -> &mut [u8] {
        assert!(bytes.len() <= self.len);
        let place = if at_end { self.len - bytes.len() } else { 0 };
        // SAFETY: the range lies between the two shut pages.
        let held = unsafe { std::slice::from_raw_parts_mut(self.room.add(place), bytes.len()) };
        held.copy_from_slice(bytes);
        held
    }
}

#[test]
fn no_call_strays_from_its_slices() {
    let mut rng = Rng::new(0x9a9d);
    let (mut first, mut second, mut third) = (Guarded::new(3 * PAGE), Guarded::new(3 * PAGE), Guarded::new(3 * PAGE));
    for round in 0..20_000 {
        let at_end = round % 2 == 0;
        let state = any_receiver(&mut rng);
        if let ReceiverCall::Settle { rec, slot, count, number, passed, plain } = receiver_call(&mut rng, &state) {
            let rec = first.hold(&rec, at_end);
            let plain = second.hold(&plain, at_end);
            let mut receiver = <Husk as Version>::Receiver::from_raw(state);
            receiver.offer(rec, slot);
            let settled = receiver.settle(rec, slot, count, number, passed, plain);
            Husk::view(state.setting.mode, settled.place, settled.length, rec, plain);
            Husk::body_of(Husk::record_of(rec));
        }
        let state = any_sender(&mut rng);
        if let SenderCall::Build { app, random, out } = sender_call(&mut rng, &state) {
            let app = first.hold(&app, at_end);
            let random = second.hold(&random, at_end);
            let out = third.hold(&out, at_end);
            let mut sender = <Husk as Version>::Sender::from_raw(state);
            sender.build(app, random, out);
            Husk::wrap_record(app, out);
            Husk::wrap_data(true, 5, random, out);
        }
    }
}

/// A table whose words end, or begin, at a shut page.
fn lent<'a>(room: &'a mut Guarded, table: &raw::Table, at_end: bool) -> &'a mut raw::Table {
    let bytes: Vec<u8> = table.rows.iter().flatten().flat_map(|word| word.to_ne_bytes()).collect();
    let held = room.hold(&bytes, at_end);
    assert_eq!(held.as_ptr().align_offset(std::mem::align_of::<raw::Table>()), 0);
    // SAFETY: as many bytes as a table has, aligned, and any words are a table.
    unsafe { &mut *held.as_mut_ptr().cast::<raw::Table>() }
}

#[test]
fn no_call_strays_from_its_table() {
    let mut rng = Rng::new(0x9a9e);
    let (mut first, mut second, mut third) = (Guarded::new(3 * PAGE), Guarded::new(3 * PAGE), Guarded::new(3 * PAGE));
    let mut room = Guarded::new(PAGE);
    for round in 0..4_000 {
        let at_end = round % 2 == 0;
        let state = any_table(&mut rng);
        let row = rng.below(18) as u8;
        let table = lent(&mut room, &words(&state), at_end);
        let ends = state.get(usize::from(row)).copied().unwrap_or_default();
        if let ReceiverCall::Settle { rec, slot, count, number, passed, plain } = receiver_call(&mut rng, &ends.receiver) {
            let rec = first.hold(&rec, at_end);
            let plain = second.hold(&plain, at_end);
            table.offer(rec, slot);
            let taken = table.settle(rec, slot, count, number, u8::from(passed), plain);
            raw::view(u8::from(!plain.is_empty()), taken.place, taken.length, rec, plain);
        }
        if let SenderCall::Build { app, random, out } = sender_call(&mut rng, &ends.sender) {
            let (app, random, out) = (first.hold(&app, at_end), second.hold(&random, at_end), third.hold(&out, at_end));
            table.build(row, app, random, out);
        }
        table.gaps(row, 0);
        table.change_receiver(row, rng.iv());
        table.change_sender(row, rng.iv());
        table.drop_old(row);
        table.open(setting_in(any_setting(&mut rng)), rng.iv(), rng.iv());
        table.close(row);
    }
}
