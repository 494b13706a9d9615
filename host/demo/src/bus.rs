//! The bus from the bridge to the controller, for one element: it loses, delays and forges.
use std::mem::take;

/// What becomes of a message.
#[derive(Clone, Copy, Debug, PartialEq, Eq)]
pub enum Fate {
    /// It arrives at once.
    Through,
    /// It never arrives.
    Lost,
    /// It arrives after this many others were sent.
    Late(u64),
    /// A forged copy arrives just before it.
    Forged(Forgery),
}

/// What is changed in a forged copy.
#[derive(Clone, Copy, Debug, PartialEq, Eq)]
pub enum Forgery {
    /// Length says 65,535, which is far more than there is.
    Length,
    /// One bit of the MAC.
    Mac,
}

impl Forgery {
    /// A forged copy of a message.
    fn of(self, message: &[u8]) -> Vec<u8> {
        let mut forged = message.to_vec();
        match self {
            // Behind the message's type byte, the record's Length is the header's last field.
            Forgery::Length => forged[1 + husk::HEADER - 2..1 + husk::HEADER].fill(0xff),
            Forgery::Mac => {
                if let Some(last) = forged.last_mut() {
                    *last ^= 1;
                }
            }
        }
        forged
    }
}

/// A message that was overtaken.
struct Late {
    due: u64,
    message: Vec<u8>,
}

/// One element's way over the bus.
pub struct Bus {
    fate: fn(u64) -> Fate,
    carried: u64,
    late: Vec<Late>,
}

impl Bus {
    /// A bus on which the message number n, from 0, has the fate of n.
    pub fn new(fate: fn(u64) -> Fate) -> Bus {
        Bus {
            fate,
            carried: 0,
            late: Vec::new(),
        }
    }

    /// Carries a message, and answers what arrives now, in this order.
    pub fn carry(&mut self, message: &[u8]) -> Vec<Vec<u8>> {
        let now = self.carried;
        self.carried += 1;
        let mut arrived = Vec::new();
        match (self.fate)(now) {
            Fate::Through => arrived.push(message.to_vec()),
            Fate::Lost => {}
            Fate::Late(by) => self.late.push(Late {
                due: now + by,
                message: message.to_vec(),
            }),
            Fate::Forged(forgery) => {
                arrived.push(forgery.of(message));
                arrived.push(message.to_vec());
            }
        }
        let late = take(&mut self.late).into_iter();
        let (due, late): (Vec<_>, Vec<_>) = late.partition(|late| late.due <= now);
        self.late = late;
        arrived.extend(due.into_iter().map(|late| late.message));
        arrived
    }
}
