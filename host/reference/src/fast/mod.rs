//! The quick version: the same answers as [`crate::memory`], with a window
//! of words per key, one load for the header, and no allocation. The State rule
//! is checked on every call here too, so the two do the same work.

mod key;
mod nonce;
mod receiver;
mod record;
mod sender;
mod table;
mod view;
mod window;
mod wrapping;

pub use nonce::nonce;
pub use receiver::Receiver;
pub use sender::Sender;
pub use table::Table;
pub use view::view;
pub use window::number_of;
pub use wrapping::{body_of, read_data, read_message, record_of, wrap_data, wrap_record};
