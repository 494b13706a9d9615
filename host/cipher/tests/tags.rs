//! The lengths of tags: which a cipher has, and that a key has one of them.
use cipher::{Aead, NoSuchTag, Suite, KEY, NONCE, TAG};

const SUITES: [Suite; 2] = [Suite::Aes256Gcm, Suite::ChaCha20Poly1305];
const SECRET: [u8; KEY] = [1; KEY];

/// libcrypto would cut a tag of either cipher to any length.
#[test]
fn a_cipher_has_its_own_lengths_and_no_other() {
    for (suite, tags) in SUITES.into_iter().zip([&[8, 12, 16][..], &[16]]) {
        for len in 0..=2 * TAG {
            let refusal = Aead::with_tag(suite, &SECRET, len).err();
            let refused = (!tags.contains(&len)).then_some(NoSuchTag { suite, len });
            assert_eq!(refusal, refused);
        }
    }
    let refusal = Aead::with_tag(Suite::ChaCha20Poly1305, &SECRET, 8).err();
    assert_eq!(
        refusal.unwrap().to_string(),
        "ChaCha20Poly1305 has no tag of 8 bytes"
    );
}

/// A tag that was cut says no, though its bytes are right, and so does one with bytes too many.
#[test]
fn a_tag_of_another_length_says_no() {
    for suite in SUITES {
        let (mut sealed, mut tag) = (*b"a reading", [0; TAG]);
        Aead::new(suite, &SECRET).seal(&[3; NONCE], b"", &mut sealed, &mut tag);
        let tags = [tag, tag].concat();
        for &right in suite.tags() {
            let mut aead = Aead::with_tag(suite, &SECRET, right).unwrap();
            for len in 0..=2 * TAG {
                let mut text = sealed;
                let yes = aead.open(&[3; NONCE], b"", &mut text, &tags[..len]);
                assert_eq!(yes, len == right);
                assert_eq!(text, if yes { *b"a reading" } else { [0; 9] });
            }
        }
    }
}

#[test]
#[should_panic(expected = "the key's tags have another length")]
fn no_record_is_sealed_with_a_tag_of_another_length() {
    let mut aead = Aead::with_tag(Suite::Aes256Gcm, &SECRET, 12).unwrap();
    aead.seal(&[3; NONCE], b"", &mut [], &mut [0; 8]);
}
