//! What is answered to a key for tags of a length that its cipher has not.
use crate::Suite;
use std::fmt;

/// The cipher has no tag of this length. [`Suite::tags`] has those that it has.
#[derive(Clone, Copy, Debug, PartialEq, Eq)]
pub struct NoSuchTag {
    /// The cipher.
    pub suite: Suite,
    /// The length that was asked for.
    pub len: usize,
}

impl fmt::Display for NoSuchTag {
    fn fmt(&self, f: &mut fmt::Formatter<'_>) -> fmt::Result {
        write!(f, "{:?} has no tag of {} bytes", self.suite, self.len)
    }
}

impl std::error::Error for NoSuchTag {}
