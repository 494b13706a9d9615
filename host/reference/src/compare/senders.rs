//! Two senders side by side.

use super::apply::apply_sender;
use super::contract::sender_contract;
use super::difference::{same, Difference};
use super::tally::Tally;
use crate::kind::Kind;
use crate::random::{any_sender, any_setting, good_sender, sender_call, Rng, SenderCall};
use crate::version::{SenderCalls, Version};

/// The two senders, always in the same state.
struct Pair<A, B> {
    first: A,
    second: B,
}

impl<A: SenderCalls, B: SenderCalls> Pair<A, B> {
    /// Makes one call on both and checks all that came of it.
    fn call(&mut self, call: &SenderCall, tally: &mut Tally) -> Result<(), Difference> {
        let before = self.first.raw();
        let first = apply_sender(&mut self.first, call);
        let second = apply_sender(&mut self.second, call);
        tally.count(call.kind(), first.answer.number());
        same(call, &first, &second).map_err(|d| d.after(&before))?;
        sender_contract(&before, call, &first)
    }
}

/// So many single calls, each on a random state, good or bad.
///
/// # Errors
/// The first difference, or the first broken promise.
pub fn sender_calls<A: Version, B: Version>(seed: u64, calls: u64) -> Result<Tally, Difference> {
    let mut rng = Rng::new(seed);
    let mut tally = Tally::default();
    for _ in 0..calls {
        let state = any_sender(&mut rng);
        let mut pair = Pair {
            first: A::Sender::from_raw(state),
            second: B::Sender::from_raw(state),
        };
        pair.call(&sender_call(&mut rng, &state), &mut tally)?;
    }
    Ok(tally)
}

/// Runs of calls, each given the state that the last one returned.
///
/// # Errors
/// The first difference, or the first broken promise.
pub fn sender_runs<A: Version, B: Version>(
    seed: u64,
    runs: u64,
    length: u64,
) -> Result<Tally, Difference> {
    let mut rng = Rng::new(seed);
    let mut tally = Tally::default();
    for _ in 0..runs {
        let mut pair = begin::<A, B>(&mut rng, &mut tally)?;
        for _ in 0..length {
            let call = sender_call(&mut rng, &pair.second.raw());
            pair.call(&call, &mut tally)?;
        }
    }
    Ok(tally)
}

fn begin<A: Version, B: Version>(
    rng: &mut Rng,
    tally: &mut Tally,
) -> Result<Pair<A::Sender, B::Sender>, Difference> {
    if rng.one_in(3) {
        let state = good_sender(rng);
        return Ok(Pair {
            first: A::Sender::from_raw(state),
            second: B::Sender::from_raw(state),
        });
    }
    let (setting, iv) = (any_setting(rng), rng.iv());
    let (answer, first) = A::Sender::open(setting, iv);
    let (other, second) = B::Sender::open(setting, iv);
    tally.count(Kind::Open, answer);
    let outcomes = ((answer, first.raw()), (other, second.raw()));
    same(&(setting, iv), &outcomes.0, &outcomes.1)?;
    Ok(Pair { first, second })
}
