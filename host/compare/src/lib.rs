//! The proved record layer in the shape that the reference compares: every answer field by field, every
//! state and every byte of the buffers.
pub mod table;

use husk::raw;
use reference::version::{ReceiverCalls, SenderCalls, Version};
use reference::{Built, Iv, Nonce, Offered, RawKey, RawReceiver, RawSender, Setting, Settled};

/// The proved version.
#[derive(Clone, Copy, Debug)]
pub struct Husk;

/// Its sender.
#[derive(Clone, Copy, Debug)]
pub struct HuskSender(raw::Sender);

/// Its receiver.
#[derive(Clone, Copy, Debug)]
pub struct HuskReceiver(raw::Receiver);

/// The reference's setting, for the proved version.
pub fn setting_in(setting: Setting) -> raw::Setting {
    let Setting { mode, layout, mac, profile, width, session, limit } = setting;
    raw::Setting { mode, layout, mac, profile, width, session, limit }
}

/// The proved version's setting, for the reference.
pub fn setting_out(setting: raw::Setting) -> Setting {
    let raw::Setting { mode, layout, mac, profile, width, session, limit } = setting;
    Setting { mode, layout, mac, profile, width, session, limit }
}

fn key_in(k: RawKey) -> raw::Key {
    raw::Key { iv: k.iv, window: raw::Window { next: k.next, marks: raw::Marks { words: k.marks } } }
}

fn key_out(k: raw::Key) -> RawKey {
    RawKey { iv: k.iv, next: k.window.next, marks: k.window.marks.words }
}

impl SenderCalls for HuskSender {
    fn open(setting: Setting, iv: Iv) -> (u8, Self) {
        let step = raw::Sender::open(setting_in(setting), iv);
        (step.answer, HuskSender(step.next))
    }

    fn from_raw(s: RawSender) -> Self {
        HuskSender(raw::Sender { setting: setting_in(s.setting), count: s.count, next: s.next, iv: s.iv })
    }

    fn raw(&self) -> RawSender {
        RawSender { setting: setting_out(self.0.setting), count: self.0.count, next: self.0.next, iv: self.0.iv }
    }

    fn build(&mut self, app: &[u8], random: &[u8], out: &mut [u8]) -> Built {
        let b = self.0.build(app, random, out);
        self.0 = b.next;
        Built { answer: b.answer, number: b.number, nonce: b.nonce, assoc: b.assoc, text: b.text, total: b.total }
    }

    fn change_key(&mut self, iv: Iv) -> u8 {
        let step = self.0.change_key(iv);
        self.0 = step.next;
        step.answer
    }
}

impl ReceiverCalls for HuskReceiver {
    fn open(setting: Setting, iv: Iv) -> (u8, Self) {
        let step = raw::Receiver::open(setting_in(setting), iv);
        (step.answer, HuskReceiver(step.next))
    }

    fn from_raw(r: RawReceiver) -> Self {
        HuskReceiver(raw::Receiver {
            setting: setting_in(r.setting),
            count: r.count,
            current: key_in(r.current),
            held: r.held,
            old: key_in(r.old),
        })
    }

    fn raw(&self) -> RawReceiver {
        RawReceiver {
            setting: setting_out(self.0.setting),
            count: self.0.count,
            current: key_out(self.0.current),
            held: self.0.held,
            old: key_out(self.0.old),
        }
    }

    fn gaps(&self, slot: u8) -> (u8, u32) {
        let counted = self.0.gaps(slot);
        (counted.answer, counted.gaps)
    }

    fn offer(&self, rec: &[u8], slot: u8) -> Offered {
        let o = self.0.offer(rec, slot);
        Offered { answer: o.answer, count: o.count, number: o.number, nonce: o.nonce, assoc: o.assoc, text: o.text }
    }

    fn settle(&mut self, rec: &[u8], slot: u8, count: u32, number: u64, passed: bool, plain: &[u8]) -> Settled {
        let s = self.0.settle(rec, slot, count, number, u8::from(passed), plain);
        self.0 = s.next;
        Settled { answer: s.answer, place: s.place, length: s.length }
    }

    fn change_key(&mut self, iv: Iv) -> u8 {
        let step = self.0.change_key(iv);
        self.0 = step.next;
        step.answer
    }

    fn drop_old(&mut self) -> u8 {
        let step = self.0.drop_old();
        self.0 = step.next;
        step.answer
    }
}

impl Version for Husk {
    type Sender = HuskSender;
    type Receiver = HuskReceiver;

    /// The boundary has no call for a nonce alone: a sender at that number builds with it. The largest
    /// number is never usable, so no call makes its nonce and there is nothing to compare.
    fn nonce(layout: u8, iv: &Iv, number: u64) -> Nonce {
        if number == u64::MAX {
            return reference::memory::nonce(layout, iv, number);
        }
        let setting = raw::Setting { layout, ..raw::Setting::new(0, 0, u64::MAX) };
        let sender = raw::Sender { setting, count: 0, next: number, iv: *iv };
        sender.build(&[], &[], &mut [0; 24]).nonce
    }

    fn view<'a>(mode: u8, place: u64, len: u64, rec: &'a [u8], plain: &'a [u8]) -> &'a [u8] {
        raw::view(mode, place, len, rec, plain)
    }

    fn wrap_data(integrity: bool, kind: u8, body: &[u8], out: &mut [u8]) -> (u8, u64) {
        let wrote = raw::wrap_data(u8::from(integrity), kind, body, out);
        (wrote.answer, wrote.length)
    }

    fn read_data(data: &[u8]) -> (u8, bool, u8) {
        let read = raw::read_data(data);
        (read.answer, read.integrity, read.kind)
    }

    fn body_of(data: &[u8]) -> &[u8] {
        raw::body_of(data)
    }

    fn wrap_record(rec: &[u8], out: &mut [u8]) -> (u8, u64) {
        let wrote = raw::wrap_record(rec, out);
        (wrote.answer, wrote.length)
    }

    fn read_message(msg: &[u8]) -> u8 {
        raw::read_message(msg)
    }

    fn record_of(msg: &[u8]) -> &[u8] {
        raw::record_of(msg)
    }
}
