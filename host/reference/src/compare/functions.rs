//! The calls without a state, side by side.

use super::apply::apply_function;
use super::contract::function_contract;
use super::difference::{same, Difference};
use super::tally::Tally;
use crate::random::{function_call, Rng};
use crate::version::Version;

/// So many calls of the wrapping, the view and the nonce.
///
/// # Errors
/// The first difference, or the first broken promise.
pub fn function_calls<A: Version, B: Version>(seed: u64, calls: u64) -> Result<Tally, Difference> {
    let mut rng = Rng::new(seed);
    let mut tally = Tally::default();
    for _ in 0..calls {
        let call = function_call(&mut rng);
        let first = apply_function::<A>(&call);
        let second = apply_function::<B>(&call);
        tally.count(call.kind(), first.answer);
        same(&call, &first, &second)?;
        function_contract(&call, &first)?;
    }
    Ok(tally)
}
