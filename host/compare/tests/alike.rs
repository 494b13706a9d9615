//! The proved version answers as the independent one: on single calls from any state, good or bad, on
//! runs, on the wrapping, the view and the nonce; and every refusal of page 01 is met on the way.
use compare::Husk;
use reference::compare::{function_calls, receiver_calls, receiver_runs, sender_calls, sender_runs, Difference, Tally};
use reference::version::Memory;
use reference::Refusal;

const SEED: u64 = 0x5eed_0001;

fn alike(part: Result<Tally, Difference>) -> Tally {
    match part {
        Ok(tally) => tally,
        Err(difference) => panic!("{:?}", difference),
    }
}

#[test]
fn every_call_from_every_state() {
    let mut tally = alike(receiver_calls::<Husk, Memory>(SEED, 60_000));
    tally.add(&alike(receiver_runs::<Husk, Memory>(SEED, 300, 200)));
    tally.add(&alike(sender_calls::<Husk, Memory>(SEED, 20_000)));
    tally.add(&alike(sender_runs::<Husk, Memory>(SEED, 200, 100)));
    tally.add(&alike(function_calls::<Husk, Memory>(SEED, 60_000)));
    assert_eq!(tally.strange(), 0);
    for number in 1..=21 {
        let refusal = Refusal::ALL[usize::from(number - 1u8)];
        assert!(tally.refused(refusal) > 0, "{:?} was never met", refusal);
    }
}
