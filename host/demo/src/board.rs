//! The board at one element: it measures, builds and seals.
use crate::{Reading, Rng, Secret};
use cipher::Aead;
use husk::wrapping::wrap_record;
use husk::{Refusal, Sender, Setting};

/// Room for a board's longest record: header, data length, reading, padding and MAC.
const ROOM: usize = 64;
/// Padding is below this many bytes.
const PADDING: u32 = 8;

/// A board, the sending end of a channel.
pub struct Board {
    setting: Setting,
    sender: Sender,
    aead: Aead,
    reading: Reading,
    rng: Rng,
    hung: bool,
}

impl Board {
    /// A board with the setting and the secret that the controller's end has too.
    ///
    /// # Errors
    /// [`Refusal::Setting`].
    pub fn new(setting: Setting, secret: &Secret, rng: Rng) -> Result<Board, Refusal> {
        Ok(Board {
            setting,
            sender: Sender::open(setting, secret.iv())?,
            aead: secret.aead(setting),
            reading: Reading::default(),
            rng,
            hung: false,
        })
    }

    /// Measures, and answers the MCTP message with the reading; nothing from a board that hangs.
    ///
    /// # Errors
    /// [`Refusal::Spent`], where the key has no number left.
    pub fn send(&mut self) -> Result<Option<Vec<u8>>, Refusal> {
        if self.hung {
            return Ok(None);
        }
        self.reading = self.reading.next(&mut self.rng);
        let record = self.seal(&self.reading.wrap()?)?;
        let mut message = vec![0; 1 + record.len()];
        wrap_record(&record, &mut message)?;
        Ok(Some(message))
    }

    /// A record: built, then sealed with exactly what the build answered.
    fn seal(&mut self, app: &[u8]) -> Result<Vec<u8>, Refusal> {
        let padding: [u8; PADDING as usize] = self.rng.bytes();
        // Only an encrypted record may be padded; its length then tells less of what is in it.
        let padding = match self.setting.mode {
            husk::ENCRYPTED => &padding[..self.rng.below(PADDING) as usize],
            _ => &[],
        };
        let mut record = vec![0; ROOM];
        let built = self.sender.build(app, padding, &mut record)?;
        record.truncate(built.total);
        let (assoc, rest) = record.split_at_mut(built.assoc);
        let (text, mac) = rest.split_at_mut(built.text - built.assoc);
        self.aead.seal(&built.nonce, assoc, text, mac);
        Ok(record)
    }

    /// A new key and IV; the numbers begin again.
    ///
    /// # Errors
    /// [`Refusal::Epochs`].
    pub fn change_key(&mut self, secret: &Secret) -> Result<(), Refusal> {
        self.sender.change_key(secret.iv())?;
        self.aead = secret.aead(self.setting);
        Ok(())
    }

    /// From now on the board sends nothing.
    pub fn hang(&mut self) {
        self.hung = true;
    }

    /// What it measured last.
    pub fn reading(&self) -> Reading {
        self.reading
    }
}
