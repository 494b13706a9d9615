//! The cipher's part of a record: AES-256-GCM's open, as libcrypto does it.
use crate::records::{setting, Set, IV};
use cipher::{Aead, Suite, TAG};
use husk::raw::Receiver;
use std::hint::black_box;

struct Sealed {
    nonce: [u8; 12],
    assoc: [u8; husk::HEADER],
    text: Vec<u8>,
    tag: [u8; TAG],
}

/// A set's records in mode 1, sealed under one key.
pub struct Opening {
    aead: Aead,
    records: Vec<Sealed>,
    text: Vec<u8>,
}

impl Opening {
    pub fn new(set: &Set) -> Opening {
        let mut aead = Aead::new(Suite::Aes256Gcm, &[7; cipher::KEY]);
        let mut records = Vec::new();
        for rec in set.records() {
            let offered = Receiver::open(setting(set.mode), IV).next.offer(rec, 0);
            let mut assoc = [0; husk::HEADER];
            assoc.copy_from_slice(&rec[..offered.assoc as usize]);
            let (mut text, mut tag) = (set.plain.clone(), [0; TAG]);
            aead.seal(&offered.nonce, &assoc, &mut text, &mut tag);
            records.push(Sealed { nonce: offered.nonce, assoc, text, tag });
        }
        Opening { aead, records, text: set.plain.clone() }
    }

    /// Opens them all. The text is copied first, since it is decrypted in place.
    pub fn run(&mut self) -> usize {
        let mut taken = 0;
        for sealed in &self.records {
            let sealed = black_box(sealed);
            self.text.copy_from_slice(&sealed.text);
            taken += usize::from(self.aead.open(&sealed.nonce, &sealed.assoc, &mut self.text, &sealed.tag));
            black_box(&self.text);
        }
        taken
    }
}
