//! A toy cipher for tests: it has the shape of an AEAD and no strength.

use reference::random::Rng;
use reference::Nonce;

/// A word from all that is given to it.
fn mix(key: u64, parts: &[&[u8]]) -> u64 {
    let mut word = key;
    for part in parts {
        word = Rng::new(word ^ part.len() as u64).word();
        for &byte in *part {
            word = Rng::new(word ^ u64::from(byte)).word();
        }
    }
    word
}

fn stream(key: u64, nonce: &Nonce, text: &[u8]) -> Vec<u8> {
    let pad = Rng::new(mix(key, &[nonce])).bytes(text.len());
    text.iter().zip(pad).map(|(a, b)| a ^ b).collect()
}

/// The MAC, of so many bytes.
fn code(key: u64, nonce: &Nonce, assoc: &[u8], sealed: &[u8], len: usize) -> Vec<u8> {
    Rng::new(mix(!key, &[nonce, assoc, sealed])).bytes(len)
}

/// Encrypts the text and writes the MAC behind it, where they stand.
pub fn seal(key: u64, nonce: &Nonce, rec: &mut [u8], assoc: usize, text: usize) {
    let sealed = stream(key, nonce, &rec[assoc..text]);
    rec[assoc..text].copy_from_slice(&sealed);
    let mac = code(key, nonce, &rec[..assoc], &sealed, rec.len() - text);
    rec[text..].copy_from_slice(&mac);
}

/// The cipher's yes or no, and the plaintext (zeros on a no).
pub fn open(key: u64, nonce: &Nonce, rec: &[u8], assoc: usize, text: usize) -> (bool, Vec<u8>) {
    let (sealed, mac) = (&rec[assoc..text], &rec[text..]);
    if code(key, nonce, &rec[..assoc], sealed, mac.len()) == mac {
        (true, stream(key, nonce, sealed))
    } else {
        (false, vec![0; sealed.len()])
    }
}
