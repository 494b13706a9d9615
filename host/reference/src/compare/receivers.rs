//! Two receivers side by side.

use super::apply::apply_receiver;
use super::contract::receiver_contract;
use super::difference::{same, Difference};
use super::tally::Tally;
use crate::kind::Kind;
use crate::random::{
    any_receiver, any_setting, good_receiver, receiver_call, Mailbox, ReceiverCall, Rng,
};
use crate::version::{ReceiverCalls, Version};

/// The two receivers, always in the same state.
struct Pair<A, B> {
    first: A,
    second: B,
}

impl<A: ReceiverCalls, B: ReceiverCalls> Pair<A, B> {
    /// Makes one call on both and checks all that came of it.
    fn call(&mut self, call: &ReceiverCall, tally: &mut Tally) -> Result<(), Difference> {
        let before = self.first.raw();
        let first = apply_receiver(&mut self.first, call);
        let second = apply_receiver(&mut self.second, call);
        tally.count(call.kind(), first.answer.number());
        same(call, &first, &second).map_err(|d| d.after(&before))?;
        receiver_contract(&before, call, &first)
    }
}

/// So many single calls, each on a random state, good or bad.
///
/// # Errors
/// The first difference, or the first broken promise.
pub fn receiver_calls<A: Version, B: Version>(seed: u64, calls: u64) -> Result<Tally, Difference> {
    let mut rng = Rng::new(seed);
    let mut tally = Tally::default();
    for _ in 0..calls {
        let state = any_receiver(&mut rng);
        let mut pair = Pair {
            first: A::Receiver::from_raw(state),
            second: B::Receiver::from_raw(state),
        };
        same(&"raw", &pair.first.raw(), &state)?;
        same(&"raw", &pair.second.raw(), &state)?;
        pair.call(&receiver_call(&mut rng, &state), &mut tally)?;
    }
    Ok(tally)
}

/// Runs of calls, each given the state that the last one returned. Most begin
/// with Open, some with a good state close to a line.
///
/// # Errors
/// The first difference, or the first broken promise.
pub fn receiver_runs<A: Version, B: Version>(
    seed: u64,
    runs: u64,
    length: u64,
) -> Result<Tally, Difference> {
    let mut rng = Rng::new(seed);
    let mut tally = Tally::default();
    for _ in 0..runs {
        let mut pair = begin::<A, B>(&mut rng, &mut tally)?;
        let mut mailbox = Mailbox::new(&mut rng);
        for _ in 0..length {
            let call = mailbox.next_call(&mut rng, &pair.second.raw());
            pair.call(&call, &mut tally)?;
        }
    }
    Ok(tally)
}

fn begin<A: Version, B: Version>(
    rng: &mut Rng,
    tally: &mut Tally,
) -> Result<Pair<A::Receiver, B::Receiver>, Difference> {
    if rng.one_in(3) {
        let state = good_receiver(rng);
        return Ok(Pair {
            first: A::Receiver::from_raw(state),
            second: B::Receiver::from_raw(state),
        });
    }
    let (setting, iv) = (any_setting(rng), rng.iv());
    let (answer, first) = A::Receiver::open(setting, iv);
    let (other, second) = B::Receiver::open(setting, iv);
    tally.count(Kind::Open, answer);
    let outcomes = ((answer, first.raw()), (other, second.raw()));
    same(&(setting, iv), &outcomes.0, &outcomes.1)?;
    Ok(Pair { first, second })
}
