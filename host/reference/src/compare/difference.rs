//! Where two versions part, or one breaks a promise.

use std::fmt::{self, Debug, Display};

/// The first difference found, with all that is needed to make it again.
#[derive(Clone, Debug, PartialEq, Eq)]
pub struct Difference {
    report: String,
}

impl Difference {
    /// A promise that a version broke.
    pub(super) fn broken(promise: &str, call: &impl Debug, outcome: &impl Debug) -> Self {
        let report = format!("{promise}\ncall {call:?}\noutcome {outcome:?}");
        Difference { report }
    }

    /// Adds what came before, such as the state or the seed.
    pub(super) fn after(self, before: &impl Debug) -> Self {
        let report = format!("{}\nfrom {before:?}", self.report);
        Difference { report }
    }
}

/// Both outcomes of a call must be the same.
pub(super) fn same<T: Debug + PartialEq>(
    call: &impl Debug,
    first: &T,
    second: &T,
) -> Result<(), Difference> {
    if first == second {
        return Ok(());
    }
    let report = format!("call {call:?}\nfirst {first:?}\nsecond {second:?}");
    Err(Difference { report })
}

impl Display for Difference {
    fn fmt(&self, f: &mut fmt::Formatter<'_>) -> fmt::Result {
        f.write_str(&self.report)
    }
}

impl std::error::Error for Difference {}
