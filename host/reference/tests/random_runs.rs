//! The plain version and the quick one side by side, on random calls and runs.

use reference::compare::{
    function_calls, receiver_calls, receiver_runs, sender_calls, sender_runs, Difference, Tally,
};
use reference::version::{Fast, Memory};
use reference::{Kind, Refusal};

/// The tally of a comparison without a difference.
fn agreed(result: Result<Tally, Difference>) -> Tally {
    result.unwrap_or_else(|difference| panic!("{difference}"))
}

/// Every refusal listed for these calls was met, and success too.
fn all_met(tally: &Tally, kinds: &[Kind]) {
    for &kind in kinds {
        assert!(tally.seen(kind, 0) > 100, "{kind:?} succeeds");
        for refusal in kind.order() {
            let seen = tally.seen(kind, refusal.number());
            assert!(seen > 10, "{kind:?} {refusal:?} {seen}");
        }
    }
}

const RECEIVER: [Kind; 5] = [
    Kind::Gaps,
    Kind::Offer,
    Kind::Settle,
    Kind::ReceiverKey,
    Kind::Drop,
];
const SENDER: [Kind; 2] = [Kind::Build, Kind::SenderKey];

#[test]
fn receivers_in_any_state() {
    let tally = agreed(receiver_calls::<Memory, Fast>(11, 600_000));
    all_met(&tally, &RECEIVER);
}

#[test]
fn receivers_in_runs() {
    let short = agreed(receiver_runs::<Memory, Fast>(12, 10_000, 100));
    all_met(&short, &RECEIVER);
    all_met(&short, &[Kind::Open]);
    agreed(receiver_runs::<Memory, Fast>(13, 20, 25_000));
}

#[test]
fn senders_in_any_state() {
    let tally = agreed(sender_calls::<Memory, Fast>(21, 500_000));
    all_met(&tally, &SENDER);
}

#[test]
fn senders_in_runs() {
    let tally = agreed(sender_runs::<Memory, Fast>(22, 5_000, 60));
    all_met(&tally, &[Kind::Open, Kind::Build]);
}

#[test]
fn calls_without_a_state() {
    let tally = agreed(function_calls::<Memory, Fast>(31, 500_000));
    let kinds = [
        Kind::WriteData,
        Kind::ReadData,
        Kind::WriteMessage,
        Kind::ReadMessage,
        Kind::Plain,
    ];
    all_met(&tally, &kinds);
}

#[test]
fn every_refusal_is_met() {
    let mut tally = Tally::default();
    tally.add(&agreed(receiver_calls::<Memory, Fast>(41, 50_000)));
    tally.add(&agreed(receiver_runs::<Memory, Fast>(42, 500, 60)));
    tally.add(&agreed(sender_calls::<Memory, Fast>(43, 50_000)));
    tally.add(&agreed(function_calls::<Memory, Fast>(44, 50_000)));
    let numbers: Vec<u8> = Refusal::ALL.map(Refusal::number).to_vec();
    assert_eq!(numbers, (1..=21).collect::<Vec<u8>>());
    for refusal in Refusal::ALL {
        assert!(tally.refused(refusal) > 0, "{refusal:?}");
        assert_eq!(Refusal::from_number(refusal.number()), Some(refusal));
    }
    assert_eq!(tally.strange(), 0);
}
