//! Page 01's promise for every call: the answer is one of those listed for
//! it, a refusal has zeros in all other fields, writes nothing and keeps the
//! state, but for Inner, which marks; and no good state turns bad.

use super::difference::Difference;
use super::outcome::{
    FunctionOutcome, ReceiverAnswer, ReceiverOutcome, SenderAnswer, SenderOutcome,
};
use crate::answers::{Built, Offered, Settled};
use crate::kind::Kind;
use crate::memory::{receiver_is_bad, sender_is_bad};
use crate::random::{FunctionCall, ReceiverCall, SenderCall};
use crate::raw::{RawReceiver, RawSender};
use crate::refusal::Refusal;

/// Checks a call to a receiver.
pub fn receiver_contract(
    before: &RawReceiver,
    call: &ReceiverCall,
    outcome: &ReceiverOutcome,
) -> Result<(), Difference> {
    let number = outcome.answer.number();
    let kept = outcome.next == *before;
    let may_change = number == 0 && call.kind() != Kind::Gaps && call.kind() != Kind::Offer;
    // Inner marks a number that was not marked, so the state must differ.
    let fits = match number == Refusal::Inner.number() {
        true => !kept,
        false => kept || may_change,
    };
    let promises = [
        ("answer not listed", listed(call.kind(), number)),
        ("state changed or kept wrongly", fits),
        ("fields not zero", number == 0 || bare(&outcome.answer)),
        (
            "good state turned bad",
            receiver_is_bad(before) == receiver_is_bad(&outcome.next),
        ),
        (
            "State answered wrongly",
            receiver_is_bad(before) == (number == Refusal::State.number()),
        ),
    ];
    all_kept(&promises, call, outcome).map_err(|d| d.after(before))
}

/// Checks a call to a sender.
pub fn sender_contract(
    before: &RawSender,
    call: &SenderCall,
    outcome: &SenderOutcome,
) -> Result<(), Difference> {
    let number = outcome.answer.number();
    let untouched = match call {
        SenderCall::Build { out, .. } => *out == outcome.out,
        SenderCall::ChangeKey { .. } => true,
    };
    let zero = match outcome.answer {
        SenderAnswer::Build(built) => built == refused_build(number),
        SenderAnswer::ChangeKey(_) => true,
    };
    let promises = [
        ("answer not listed", listed(call.kind(), number)),
        ("state changed", number == 0 || outcome.next == *before),
        ("buffer written", number == 0 || untouched),
        ("fields not zero", number == 0 || zero),
        (
            "good state turned bad",
            sender_is_bad(before) == sender_is_bad(&outcome.next),
        ),
        (
            "State answered wrongly",
            sender_is_bad(before) == (number == Refusal::State.number()),
        ),
    ];
    all_kept(&promises, call, outcome).map_err(|d| d.after(before))
}

/// Checks a call without a state.
pub fn function_contract(call: &FunctionCall, outcome: &FunctionOutcome) -> Result<(), Difference> {
    let refused = outcome.answer != 0;
    let bytes = match call {
        FunctionCall::WrapData { out, .. } | FunctionCall::WrapRecord { out, .. } => out.as_slice(),
        _ => &[],
    };
    let zero = outcome.value == 0 && !outcome.integrity;
    let promises = [
        ("answer not listed", listed(call.kind(), outcome.answer)),
        ("fields not zero", !refused || zero),
        (
            "bytes written or handed out",
            !refused || outcome.bytes == bytes,
        ),
    ];
    all_kept(&promises, call, outcome)
}

fn listed(kind: Kind, number: u8) -> bool {
    number == 0 || kind.order().iter().any(|r| r.number() == number)
}

/// Whether nothing but the answer number is set.
fn bare(answer: &ReceiverAnswer) -> bool {
    match *answer {
        ReceiverAnswer::Gaps(_, gaps) => gaps == 0,
        ReceiverAnswer::Offer(offered) => {
            let answer = offered.answer;
            let zeros = Offered::default();
            offered == Offered { answer, ..zeros }
        }
        ReceiverAnswer::Settle(settled) => {
            let answer = settled.answer;
            let zeros = Settled::default();
            settled == Settled { answer, ..zeros }
        }
        ReceiverAnswer::ChangeKey(_) | ReceiverAnswer::DropOld(_) => true,
    }
}

fn refused_build(answer: u8) -> Built {
    Built {
        answer,
        ..Built::default()
    }
}

fn all_kept(
    promises: &[(&str, bool)],
    call: &impl std::fmt::Debug,
    outcome: &impl std::fmt::Debug,
) -> Result<(), Difference> {
    match promises.iter().find(|(_, kept)| !kept) {
        Some((promise, _)) => Err(Difference::broken(promise, call, outcome)),
        None => Ok(()),
    }
}
