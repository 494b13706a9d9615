//! One shape for every version, so that two can be run side by side. A third
//! program is compared by writing these traits for it.

use crate::answers::{Built, Offered, Settled};
use crate::raw::{RawReceiver, RawSender};
use crate::setting::{Iv, Nonce, Setting};
use crate::{fast, memory};

/// The calls of a sender.
pub trait SenderCalls: Sized {
    /// Open.
    fn open(setting: Setting, iv: Iv) -> (u8, Self);
    /// Takes any state.
    fn from_raw(raw: RawSender) -> Self;
    /// Gives its state.
    fn raw(&self) -> RawSender;
    /// Build.
    fn build(&mut self, app: &[u8], random: &[u8], out: &mut [u8]) -> Built;
    /// The sender's key change.
    fn change_key(&mut self, iv: Iv) -> u8;
}

/// The calls of a receiver.
pub trait ReceiverCalls: Sized {
    /// Open.
    fn open(setting: Setting, iv: Iv) -> (u8, Self);
    /// Takes any state.
    fn from_raw(raw: RawReceiver) -> Self;
    /// Gives its state.
    fn raw(&self) -> RawReceiver;
    /// Gaps.
    fn gaps(&self, slot: u8) -> (u8, u32);
    /// Offer.
    fn offer(&self, rec: &[u8], slot: u8) -> Offered;
    /// Settle.
    fn settle(
        &mut self,
        rec: &[u8],
        slot: u8,
        count: u32,
        number: u64,
        passed: bool,
        plain: &[u8],
    ) -> Settled;
    /// The receiver's key change.
    fn change_key(&mut self, iv: Iv) -> u8;
    /// Drop.
    fn drop_old(&mut self) -> u8;
}

/// A whole version: both ends and the calls without a state.
pub trait Version {
    /// Its sender.
    type Sender: SenderCalls;
    /// Its receiver.
    type Receiver: ReceiverCalls;
    /// The nonce of a number in a layout.
    fn nonce(layout: u8, iv: &Iv, number: u64) -> Nonce;
    /// The part handed out.
    fn view<'a>(mode: u8, place: u64, len: u64, rec: &'a [u8], plain: &'a [u8]) -> &'a [u8];
    /// Writes application data.
    fn wrap_data(integrity: bool, kind: u8, body: &[u8], out: &mut [u8]) -> (u8, u64);
    /// Reads application data.
    fn read_data(data: &[u8]) -> (u8, bool, u8);
    /// The body of application data.
    fn body_of(data: &[u8]) -> &[u8];
    /// Writes an MCTP message.
    fn wrap_record(rec: &[u8], out: &mut [u8]) -> (u8, u64);
    /// Reads an MCTP message.
    fn read_message(msg: &[u8]) -> u8;
    /// The record in an MCTP message.
    fn record_of(msg: &[u8]) -> &[u8];
}

/// The plain version.
#[derive(Clone, Copy, Debug)]
pub struct Memory;

/// The quick version.
#[derive(Clone, Copy, Debug)]
pub struct Fast;

/// Both modules have the same shape, so one text serves for both.
macro_rules! version {
    ($name:ident, $module:ident) => {
        impl SenderCalls for $module::Sender {
            fn open(setting: Setting, iv: Iv) -> (u8, Self) {
                $module::Sender::open(setting, iv)
            }
            fn from_raw(raw: RawSender) -> Self {
                $module::Sender::from_raw(raw)
            }
            fn raw(&self) -> RawSender {
                $module::Sender::raw(self)
            }
            fn build(&mut self, app: &[u8], random: &[u8], out: &mut [u8]) -> Built {
                $module::Sender::build(self, app, random, out)
            }
            fn change_key(&mut self, iv: Iv) -> u8 {
                $module::Sender::change_key(self, iv)
            }
        }

        impl ReceiverCalls for $module::Receiver {
            fn open(setting: Setting, iv: Iv) -> (u8, Self) {
                $module::Receiver::open(setting, iv)
            }
            fn from_raw(raw: RawReceiver) -> Self {
                $module::Receiver::from_raw(raw)
            }
            fn raw(&self) -> RawReceiver {
                $module::Receiver::raw(self)
            }
            fn gaps(&self, slot: u8) -> (u8, u32) {
                $module::Receiver::gaps(self, slot)
            }
            fn offer(&self, rec: &[u8], slot: u8) -> Offered {
                $module::Receiver::offer(self, rec, slot)
            }
            fn settle(
                &mut self,
                rec: &[u8],
                slot: u8,
                count: u32,
                number: u64,
                passed: bool,
                plain: &[u8],
            ) -> Settled {
                $module::Receiver::settle(self, rec, slot, count, number, passed, plain)
            }
            fn change_key(&mut self, iv: Iv) -> u8 {
                $module::Receiver::change_key(self, iv)
            }
            fn drop_old(&mut self) -> u8 {
                $module::Receiver::drop_old(self)
            }
        }

        impl Version for $name {
            type Sender = $module::Sender;
            type Receiver = $module::Receiver;
            fn nonce(layout: u8, iv: &Iv, number: u64) -> Nonce {
                $module::nonce(layout, iv, number)
            }
            fn view<'a>(
                mode: u8,
                place: u64,
                len: u64,
                rec: &'a [u8],
                plain: &'a [u8],
            ) -> &'a [u8] {
                $module::view(mode, place, len, rec, plain)
            }
            fn wrap_data(integrity: bool, kind: u8, body: &[u8], out: &mut [u8]) -> (u8, u64) {
                $module::wrap_data(integrity, kind, body, out)
            }
            fn read_data(data: &[u8]) -> (u8, bool, u8) {
                $module::read_data(data)
            }
            fn body_of(data: &[u8]) -> &[u8] {
                $module::body_of(data)
            }
            fn wrap_record(rec: &[u8], out: &mut [u8]) -> (u8, u64) {
                $module::wrap_record(rec, out)
            }
            fn read_message(msg: &[u8]) -> u8 {
                $module::read_message(msg)
            }
            fn record_of(msg: &[u8]) -> &[u8] {
                $module::record_of(msg)
            }
        }
    };
}

version!(Memory, memory);
version!(Fast, fast);
