//! The calls of page 01 and the refusals each may give, in their order.

use crate::refusal::Refusal;
use Refusal::*;

/// One kind of call.
#[derive(Clone, Copy, Debug, PartialEq, Eq, Hash, PartialOrd, Ord)]
pub enum Kind {
    /// Open, for a sender or a receiver.
    Open,
    /// Gaps.
    Gaps,
    /// Offer.
    Offer,
    /// Settle.
    Settle,
    /// Build.
    Build,
    /// The sender's key change.
    SenderKey,
    /// The receiver's key change.
    ReceiverKey,
    /// Drop.
    Drop,
    /// Writing application data.
    WriteData,
    /// Reading application data.
    ReadData,
    /// Writing an MCTP message.
    WriteMessage,
    /// Reading an MCTP message.
    ReadMessage,
    /// View and nonce, which refuse nothing.
    Plain,
}

impl Kind {
    /// Every kind of call.
    pub const ALL: [Kind; 13] = [
        Kind::Open,
        Kind::Gaps,
        Kind::Offer,
        Kind::Settle,
        Kind::Build,
        Kind::SenderKey,
        Kind::ReceiverKey,
        Kind::Drop,
        Kind::WriteData,
        Kind::ReadData,
        Kind::WriteMessage,
        Kind::ReadMessage,
        Kind::Plain,
    ];

    /// The refusals of this call, in the order they are looked for.
    #[must_use]
    pub const fn order(self) -> &'static [Refusal] {
        match self {
            Kind::Open => &[Setting],
            Kind::Gaps | Kind::Drop => &[State, Key],
            Kind::Offer => &[
                State, Key, Short, Session, Length, Small, Spent, Old, Repeat,
            ],
            Kind::Settle => &[
                State,
                Key,
                Short,
                Session,
                Length,
                Small,
                Spent,
                Old,
                Repeat,
                Stale,
                Refusal::Plain,
                Mac,
                Inner,
            ],
            Kind::Build => &[State, Spent, Padding, Size, Room],
            Kind::SenderKey => &[State, Epochs],
            Kind::ReceiverKey => &[State, Held, Epochs],
            Kind::WriteData => &[Wrapped, Room],
            Kind::ReadData => &[Wrapped],
            Kind::WriteMessage => &[Room],
            Kind::ReadMessage => &[Frame],
            Kind::Plain => &[],
        }
    }
}
