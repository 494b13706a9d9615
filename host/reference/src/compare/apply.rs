//! Makes a call on a version and keeps all that came of it.

use super::outcome::{
    FunctionOutcome, ReceiverAnswer, ReceiverOutcome, SenderAnswer, SenderOutcome,
};
use crate::random::{FunctionCall, ReceiverCall, SenderCall};
use crate::version::{ReceiverCalls, SenderCalls, Version};

/// Makes a call to a receiver.
pub fn apply_receiver<R: ReceiverCalls>(receiver: &mut R, call: &ReceiverCall) -> ReceiverOutcome {
    let answer = match call {
        ReceiverCall::Gaps { slot } => {
            let (answer, gaps) = receiver.gaps(*slot);
            ReceiverAnswer::Gaps(answer, gaps)
        }
        ReceiverCall::Offer { rec, slot } => ReceiverAnswer::Offer(receiver.offer(rec, *slot)),
        ReceiverCall::Settle {
            rec,
            slot,
            count,
            number,
            passed,
            plain,
        } => {
            let settled = receiver.settle(rec, *slot, *count, *number, *passed, plain);
            ReceiverAnswer::Settle(settled)
        }
        ReceiverCall::ChangeKey { iv } => ReceiverAnswer::ChangeKey(receiver.change_key(*iv)),
        ReceiverCall::DropOld => ReceiverAnswer::DropOld(receiver.drop_old()),
    };
    let next = receiver.raw();
    ReceiverOutcome { answer, next }
}

/// Makes a call to a sender.
pub fn apply_sender<S: SenderCalls>(sender: &mut S, call: &SenderCall) -> SenderOutcome {
    let (answer, out) = match call {
        SenderCall::Build { app, random, out } => {
            let mut out = out.clone();
            let built = sender.build(app, random, &mut out);
            (SenderAnswer::Build(built), out)
        }
        SenderCall::ChangeKey { iv } => {
            let answer = sender.change_key(*iv);
            (SenderAnswer::ChangeKey(answer), Vec::new())
        }
    };
    let next = sender.raw();
    SenderOutcome { answer, out, next }
}

/// Makes a call without a state.
#[must_use]
pub fn apply_function<V: Version>(call: &FunctionCall) -> FunctionOutcome {
    match call {
        FunctionCall::WrapData {
            integrity,
            kind,
            body,
            out,
        } => written(out, |out| V::wrap_data(*integrity, *kind, body, out)),
        FunctionCall::WrapRecord { rec, out } => written(out, |out| V::wrap_record(rec, out)),
        FunctionCall::ReadData { data } => {
            let (answer, integrity, kind) = V::read_data(data);
            FunctionOutcome {
                answer,
                integrity,
                value: u64::from(kind),
                bytes: V::body_of(data).to_vec(),
            }
        }
        FunctionCall::ReadMessage { msg } => handed(V::read_message(msg), V::record_of(msg)),
        FunctionCall::View {
            mode,
            place,
            len,
            rec,
            plain,
        } => handed(0, V::view(*mode, *place, *len, rec, plain)),
        FunctionCall::Nonce { layout, iv, number } => handed(0, &V::nonce(*layout, iv, *number)),
    }
}

fn written(out: &[u8], write: impl FnOnce(&mut [u8]) -> (u8, u64)) -> FunctionOutcome {
    let mut bytes = out.to_vec();
    let (answer, value) = write(&mut bytes);
    FunctionOutcome {
        answer,
        integrity: false,
        value,
        bytes,
    }
}

fn handed(answer: u8, part: &[u8]) -> FunctionOutcome {
    FunctionOutcome {
        answer,
        integrity: false,
        value: 0,
        bytes: part.to_vec(),
    }
}
