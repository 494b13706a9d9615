//! Published vectors: each is sealed, opened, and refused with one bit changed. A shorter tag is the first
//! bytes of the published one: SP 800-38D, 7.1, takes the leftmost bits.
use cipher::{Aead, Suite, NONCE, TAG};

/// A published vector, in hexadecimal.
struct Vector<'a> {
    key: &'a str,
    nonce: &'a str,
    assoc: &'a str,
    text: &'a str,
    sealed: &'a str,
    tag: &'a str,
}

fn bytes(hex: &str) -> Vec<u8> {
    let digit = |c: u8| (c as char).to_digit(16).expect("a hexadecimal digit") as u8;
    assert_eq!(hex.len() % 2, 0);
    hex.as_bytes()
        .chunks(2)
        .map(|pair| digit(pair[0]) << 4 | digit(pair[1]))
        .collect()
}

fn array<const N: usize>(hex: &str) -> [u8; N] {
    bytes(hex).try_into().expect("as many bytes")
}

/// The vector with each length of tag that the cipher has.
fn check(suite: Suite, v: &Vector) {
    let tag: [u8; TAG] = array(v.tag);
    for &len in suite.tags() {
        let aead = Aead::with_tag(suite, &array(v.key), len).unwrap();
        check_tag(aead, v, &tag[..len]);
    }
    check_tag(Aead::new(suite, &array(v.key)), v, &tag);
}

/// One after another under one `Aead`, so that each operation also shows that the one before left
/// nothing behind.
fn check_tag(mut aead: Aead, v: &Vector, tag: &[u8]) {
    let nonce: [u8; NONCE] = array(v.nonce);
    let assoc = bytes(v.assoc);

    let (mut text, mut made) = (bytes(v.text), vec![0; tag.len()]);
    aead.seal(&nonce, &assoc, &mut text, &mut made);
    assert_eq!((&text, &made[..]), (&bytes(v.sealed), tag));
    assert!(aead.open(&nonce, &assoc, &mut text, tag));
    assert_eq!(text, bytes(v.text));

    for place in 0..tag.len() {
        let mut wrong = tag.to_vec();
        wrong[place] ^= 1;
        refused(&mut aead, &nonce, &assoc, bytes(v.sealed), &wrong);
    }
    for place in 0..assoc.len() {
        let mut wrong = assoc.clone();
        wrong[place] ^= 0x80;
        refused(&mut aead, &nonce, &wrong, bytes(v.sealed), tag);
    }
    for place in 0..text.len() {
        let mut wrong = bytes(v.sealed);
        wrong[place] ^= 1;
        refused(&mut aead, &nonce, &assoc, wrong, tag);
    }
    let mut other = nonce;
    other[0] ^= 1;
    refused(&mut aead, &other, &assoc, bytes(v.sealed), tag);

    let mut text = bytes(v.sealed);
    assert!(aead.open(&nonce, &assoc, &mut text, tag));
    assert_eq!(text, bytes(v.text));
}

fn refused(aead: &mut Aead, nonce: &[u8; 12], assoc: &[u8], mut text: Vec<u8>, tag: &[u8]) {
    assert!(!aead.open(nonce, assoc, &mut text, tag));
    assert!(text.iter().all(|byte| *byte == 0), "a no leaves no text");
}

const ZEROS: &str = "0000000000000000000000000000000000000000000000000000000000000000";
const FEFF: &str = "feffe9928665731c6d6a8f9467308308feffe9928665731c6d6a8f9467308308";

/// McGrew and Viega, "The Galois/Counter Mode of Operation", test case 13: nothing at all.
#[test]
fn gcm_case_13() {
    let vector = Vector {
        key: ZEROS,
        nonce: "000000000000000000000000",
        assoc: "",
        text: "",
        sealed: "",
        tag: "530f8afbc74536b9a963b4f1c4cb738b",
    };
    check(Suite::Aes256Gcm, &vector);
}

/// Test case 14: one block.
#[test]
fn gcm_case_14() {
    let vector = Vector {
        key: ZEROS,
        nonce: "000000000000000000000000",
        assoc: "",
        text: "00000000000000000000000000000000",
        sealed: "cea7403d4d606b6e074ec5d3baf39d18",
        tag: "d0d1c8a799996bf0265b98b5d48ab919",
    };
    check(Suite::Aes256Gcm, &vector);
}

/// Test case 15: four blocks.
#[test]
fn gcm_case_15() {
    let vector = Vector {
        key: FEFF,
        nonce: "cafebabefacedbaddecaf888",
        assoc: "",
        text: concat!(
            "d9313225f88406e5a55909c5aff5269a86a7a9531534f7da2e4c303d8a318a72",
            "1c3c0c95956809532fcf0e2449a6b525b16aedf5aa0de657ba637b391aafd255",
        ),
        sealed: concat!(
            "522dc1f099567d07f47f37a32a84427d643a8cdcbfe5c0c97598a2bd2555d1aa",
            "8cb08e48590dbb3da7b08b1056828838c5f61e6393ba7a0abcc9f662898015ad",
        ),
        tag: "b094dac5d93471bdec1a502270e3cc6c",
    };
    check(Suite::Aes256Gcm, &vector);
}

/// Test case 16: a last block that is not whole, and 20 bytes of associated data.
#[test]
fn gcm_case_16() {
    let vector = Vector {
        key: FEFF,
        nonce: "cafebabefacedbaddecaf888",
        assoc: "feedfacedeadbeeffeedfacedeadbeefabaddad2",
        text: concat!(
            "d9313225f88406e5a55909c5aff5269a86a7a9531534f7da2e4c303d8a318a72",
            "1c3c0c95956809532fcf0e2449a6b525b16aedf5aa0de657ba637b39",
        ),
        sealed: concat!(
            "522dc1f099567d07f47f37a32a84427d643a8cdcbfe5c0c97598a2bd2555d1aa",
            "8cb08e48590dbb3da7b08b1056828838c5f61e6393ba7a0abcc9f662",
        ),
        tag: "76fc6ece0f4e1768cddf8853bb2d551b",
    };
    check(Suite::Aes256Gcm, &vector);
}

/// RFC 8439, section 2.8.2.
#[test]
fn rfc_8439() {
    let vector = Vector {
        key: "808182838485868788898a8b8c8d8e8f909192939495969798999a9b9c9d9e9f",
        nonce: "070000004041424344454647",
        assoc: "50515253c0c1c2c3c4c5c6c7",
        text: concat!(
            "4c616469657320616e642047656e746c656d656e206f662074686520636c6173",
            "73206f66202739393a204966204920636f756c64206f6666657220796f75206f",
            "6e6c79206f6e652074697020666f7220746865206675747572652c2073756e73",
            "637265656e20776f756c642062652069742e",
        ),
        sealed: concat!(
            "d31a8d34648e60db7b86afbc53ef7ec2a4aded51296e08fea9e2b5a736ee62d6",
            "3dbea45e8ca9671282fafb69da92728b1a71de0a9e060b2905d6a5b67ecd3b36",
            "92ddbd7f2d778b8c9803aee328091b58fab324e4fad675945585808b4831d7bc",
            "3ff4def08e4b7a9de576d26586cec64b6116",
        ),
        tag: "1ae10b594f09e26a7e902ecbd0600691",
    };
    check(Suite::ChaCha20Poly1305, &vector);
}

/// A key is of its own: another key, or the other cipher, says no.
#[test]
fn another_key_says_no() {
    let nonce = [3; NONCE];
    for (suite, other) in [
        (Suite::Aes256Gcm, Suite::ChaCha20Poly1305),
        (Suite::ChaCha20Poly1305, Suite::Aes256Gcm),
    ] {
        let (mut text, mut tag) = (b"a reading".to_vec(), [0; TAG]);
        Aead::new(suite, &[1; 32]).seal(&nonce, b"", &mut text, &mut tag);
        for mut aead in [Aead::new(suite, &[2; 32]), Aead::new(other, &[1; 32])] {
            refused(&mut aead, &nonce, b"", text.clone(), &tag);
        }
    }
}
