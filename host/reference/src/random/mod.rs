//! States, records and calls at random, the same for the same seed. They lean
//! towards the places where an implementation may go wrong: E at 0, at the
//! 16-bit turns and at 2^64 - 1, the ends of the window, damaged records, and
//! states that no call returns.

mod bad;
mod calls;
mod functions;
mod mailbox;
mod numbers;
mod records;
mod rng;
mod senders;
mod states;
mod tables;

pub use bad::{any_receiver, any_sender, any_setting};
pub use calls::{receiver_call, settle_call, ReceiverCall};
pub use functions::{function_call, FunctionCall};
pub use mailbox::Mailbox;
pub use numbers::{edge, limit, near};
pub use records::{any_record, damage, plain_for, record, sound_record};
pub use rng::Rng;
pub use senders::{sender_call, SenderCall};
pub use states::{good_key, good_receiver, good_sender, good_setting};
pub use tables::any_table;
