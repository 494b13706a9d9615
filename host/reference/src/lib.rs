//! A second, independent implementation of page 01, written from the page
//! alone, to be compared with another program field by field.
//!
//! Two versions answer the same calls:
//!
//! * [`memory`]: the plain one. Its receiver remembers every number marked
//!   under every key, and works out all else from those sets.
//! * [`fast`]: the quick one, with the words of a window per key.
//!
//! [`table`] holds sixteen channels of the plain one by Session ID, and
//! [`fast::Table`] delivers to sixteen of the quick one.
//!
//! [`version`] gives both (and any third program) one shape, [`random`] makes
//! states, records and calls, and [`compare`] runs two versions side by side.

pub mod answers;
pub mod compare;
pub mod fast;
pub mod kind;
pub mod layout;
pub mod memory;
pub mod random;
pub mod raw;
pub mod refusal;
pub mod setting;
pub mod table;
pub mod version;

pub use answers::{Built, Offered, Opened, Settled};
pub use kind::Kind;
pub use raw::{Marks, RawKey, RawReceiver, RawRow, RawSender, RawTable};
pub use refusal::Refusal;
pub use setting::{Iv, Nonce, Setting};
pub use table::Table;
