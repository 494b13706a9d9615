//! The plain version. Numbers are whole numbers (wide enough never to wrap),
//! bytes are base-256 digits, and the receiver remembers sets: every number
//! marked under every key, none forgotten. E, Old, Repeat, the gap count and
//! the window words are worked out from the sets each time they are wanted.

mod channel;
mod digits;
mod key;
mod nonce;
mod number;
mod receiver;
mod record;
mod rule;
mod sender;
mod view;
mod wrapping;

pub use nonce::nonce;
pub use number::number_of;
pub use receiver::Receiver;
pub use rule::{receiver_is_bad, sender_is_bad, setting_is_bad};
pub use sender::Sender;
pub use view::view;
pub use wrapping::{body_of, read_data, read_message, record_of, wrap_data, wrap_record};
