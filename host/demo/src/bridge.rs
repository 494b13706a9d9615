//! The bridge between the boards and the bus.
use crate::ELEMENTS;

/// A mailbox for each board, which keeps the board's last message.
#[derive(Default)]
pub struct Bridge {
    mailboxes: [Option<Vec<u8>>; ELEMENTS],
}

impl Bridge {
    /// Takes a board's message, if it has one, and delivers what lies in the mailbox. So the last message
    /// of a hung board goes out again and again: the bridge can't tell it from a new one.
    pub fn pass(&mut self, element: usize, message: Option<Vec<u8>>) -> Option<&[u8]> {
        if message.is_some() {
            self.mailboxes[element] = message;
        }
        self.mailboxes[element].as_deref()
    }
}
