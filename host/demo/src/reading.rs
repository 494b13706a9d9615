//! What a board measures, as the body inside a record.
use crate::Rng;
use husk::wrapping::{read_data, wrap_data};
use husk::Refusal;

/// The encapsulated type of a reading: PLDM, which carries the values of sensors.
const KIND: u8 = 1;
/// The length of a reading's body.
const BODY: usize = 8;

/// An element's impedance.
#[derive(Clone, Copy, Debug, Default, PartialEq, Eq)]
pub struct Reading {
    /// Its place among its board's readings, from 1.
    pub sample: u32,
    /// The impedance in milliohms.
    pub impedance: u32,
}

impl Reading {
    /// The reading after this one. It always looks fine, and so can't show that a board hangs.
    pub fn next(self, rng: &mut Rng) -> Reading {
        Reading {
            sample: self.sample.wrapping_add(1),
            impedance: 49_000 + rng.below(2_000),
        }
    }

    /// The application data: the type byte and the body.
    ///
    /// # Errors
    /// None: the type is allowed, and the room is right.
    pub fn wrap(self) -> Result<[u8; 1 + BODY], Refusal> {
        let mut body = [0; BODY];
        body[..4].copy_from_slice(&self.sample.to_le_bytes());
        body[4..].copy_from_slice(&self.impedance.to_le_bytes());
        let mut app = [0; 1 + BODY];
        wrap_data(false, KIND, &body, &mut app)?;
        Ok(app)
    }

    /// The reading in application data; none where the data is wrapped right but is no reading.
    ///
    /// # Errors
    /// [`Refusal::Wrapped`].
    pub fn read(app: &[u8]) -> Result<Option<Reading>, Refusal> {
        let (lead, body) = read_data(app)?;
        if lead.kind != KIND || body.len() != BODY {
            return Ok(None);
        }
        let field =
            |at: usize| u32::from_le_bytes([body[at], body[at + 1], body[at + 2], body[at + 3]]);
        Ok(Some(Reading {
            sample: field(0),
            impedance: field(4),
        }))
    }
}
