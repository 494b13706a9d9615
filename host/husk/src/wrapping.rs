//! The wrapping: the byte before a record that makes it an MCTP message, and the byte before the
//! body inside it.
use crate::raw;
use crate::Refusal;

/// What application data says before its body.
#[derive(Clone, Copy, Debug, PartialEq, Eq)]
pub struct Lead {
    /// The bit E-IC.
    pub integrity: bool,
    /// The encapsulated type.
    pub kind: u8,
}

/// The application data of a body at the start of `out`; answers its length.
pub fn wrap_data(integrity: bool, kind: u8, body: &[u8], out: &mut [u8]) -> Result<usize, Refusal> {
    let wrote = raw::wrap_data(u8::from(integrity), kind, body, out);
    Refusal::answer(wrote.answer).map(|()| wrote.length as usize)
}

/// The bit and the type of application data, and its body.
pub fn read_data(app: &[u8]) -> Result<(Lead, &[u8]), Refusal> {
    let data = raw::read_data(app);
    let lead = Lead { integrity: data.integrity, kind: data.kind };
    Refusal::answer(data.answer).map(|()| (lead, raw::body_of(app)))
}

/// The message of a record at the start of `out`; answers its length.
pub fn wrap_record(rec: &[u8], out: &mut [u8]) -> Result<usize, Refusal> {
    let wrote = raw::wrap_record(rec, out);
    Refusal::answer(wrote.answer).map(|()| wrote.length as usize)
}

/// The record of a message.
pub fn read_message(message: &[u8]) -> Result<&[u8], Refusal> {
    Refusal::answer(raw::read_message(message)).map(|()| raw::record_of(message))
}
