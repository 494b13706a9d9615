//! The two ciphers.
use crate::{evp, TAG};

/// Which cipher a key is for.
#[derive(Clone, Copy, Debug, PartialEq, Eq, Hash)]
pub enum Suite {
    /// AES with a key of 256 bits, in Galois/Counter Mode.
    Aes256Gcm,
    /// ChaCha20 and Poly1305, as RFC 8439 joins them.
    ChaCha20Poly1305,
}

impl Suite {
    /// The lengths of its tags: those that a record's MAC may have and the cipher's own document has,
    /// SP 800-38D or RFC 8439.
    #[must_use]
    pub fn tags(self) -> &'static [usize] {
        match self {
            Suite::Aes256Gcm => &[8, 12, TAG],
            Suite::ChaCha20Poly1305 => &[TAG],
        }
    }

    /// libcrypto's description of the cipher, which is never freed.
    pub(crate) fn description(self) -> *const evp::Cipher {
        // SAFETY: both take nothing and answer a pointer to a constant of the library.
        unsafe {
            match self {
                Suite::Aes256Gcm => evp::EVP_aes_256_gcm(),
                Suite::ChaCha20Poly1305 => evp::EVP_chacha20_poly1305(),
            }
        }
    }
}
