//! The cipher of a host: AES-256-GCM and ChaCha20-Poly1305, with a nonce of twelve bytes and a tag of
//! sixteen, by OpenSSL's libcrypto. AES-256-GCM also has tags of eight and twelve, for channels whose MAC
//! is as short. RFC 8439 has no such tags for ChaCha20-Poly1305: [`Aead::with_tag`] refuses them.
//!
//! A board has its crypto block for this. The host's programs use this crate in its place: after a
//! build they [`Aead::seal`], and between an offer and its settle they [`Aead::open`].
#![deny(missing_docs, unsafe_op_in_unsafe_fn)]

mod aead;
mod evp;
mod no_such_tag;
mod suite;

pub use aead::Aead;
pub use no_such_tag::NoSuchTag;
pub use suite::Suite;

/// The length of a key.
pub const KEY: usize = 32;
/// The length of a nonce.
pub const NONCE: usize = 12;
/// The usual length of a tag, which is a record's MAC, and the longest.
pub const TAG: usize = 16;
