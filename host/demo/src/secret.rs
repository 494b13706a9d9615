//! What the SPDM handshake gives to both ends for one key.
use crate::Rng;
use cipher::{Aead, Suite, KEY};
use husk::Setting;

/// A key and its IV. No key is used again after a change.
#[derive(Clone)]
pub struct Secret {
    key: [u8; KEY],
    iv: [u8; 12],
}

impl Secret {
    /// The next key and IV. It stands in for the handshake and for the derivation of keys.
    pub fn agree(rng: &mut Rng) -> Secret {
        Secret {
            key: rng.bytes(),
            iv: rng.bytes(),
        }
    }

    /// The IV, for a sender or a receiver.
    pub fn iv(&self) -> [u8; 12] {
        self.iv
    }

    /// The cipher under this key, for a channel that was opened with this setting.
    ///
    /// # Panics
    /// Where no channel can be: AES-256-GCM has every MAC length that Open takes.
    pub fn aead(&self, setting: Setting) -> Aead {
        let aead = Aead::with_tag(Suite::Aes256Gcm, &self.key, setting.mac.into());
        aead.expect("an opened channel has a known MAC length")
    }
}
