//! Two versions side by side: the same calls, every field, buffer and state
//! compared, and page 01's promise for refusals checked on the way.

mod apply;
mod contract;
mod difference;
mod functions;
mod outcome;
mod receivers;
mod senders;
mod tally;

pub use apply::{apply_function, apply_receiver, apply_sender};
pub use contract::{function_contract, receiver_contract, sender_contract};
pub use difference::Difference;
pub use functions::function_calls;
pub use outcome::{FunctionOutcome, ReceiverAnswer, ReceiverOutcome, SenderAnswer, SenderOutcome};
pub use receivers::{receiver_calls, receiver_runs};
pub use senders::{sender_calls, sender_runs};
pub use tally::Tally;
