//! A key of one cipher, and its two operations on a record.
use crate::evp;
use crate::{NoSuchTag, Suite, KEY, NONCE, TAG};
use std::os::raw::c_int;
use std::ptr::{null, null_mut, NonNull};

/// A key for one cipher, with tags of one length. It is forgotten, and its memory wiped, when this is
/// dropped.
pub struct Aead {
    // It keeps the key schedule from record to record.
    context: NonNull<evp::Context>,
    // One length for a key, as SP 800-38D has it: a forger must not choose the tag that is guessed best.
    tag: usize,
}

// SAFETY: the context is this value's alone, and libcrypto ties it to no thread.
unsafe impl Send for Aead {}

impl Aead {
    /// The cipher under this key, with tags of the usual length.
    ///
    /// # Panics
    /// Where libcrypto has no memory, or does not offer this cipher.
    #[must_use]
    pub fn new(suite: Suite, key: &[u8; KEY]) -> Aead {
        // SAFETY: it takes nothing, and a null answer is caught on the next line.
        let context = NonNull::new(unsafe { evp::EVP_CIPHER_CTX_new() });
        let aead = Aead {
            context: context.expect("libcrypto has no memory for a key"),
            tag: TAG,
        };
        // SAFETY: the context was just made, the description is a constant, and both ciphers read the
        // 32 bytes that `key` has. No nonce is given yet.
        let went = unsafe {
            evp::EVP_CipherInit_ex(
                aead.context.as_ptr(),
                suite.description(),
                null_mut(),
                key.as_ptr(),
                null(),
                evp::ENCRYPT,
            )
        };
        assert_eq!(went, 1, "libcrypto does not offer {suite:?}");
        aead
    }

    /// The cipher under this key, with tags of `len` bytes: the MAC's length of the channel that the key
    /// is for.
    ///
    /// # Errors
    /// [`NoSuchTag`], where `len` is none of [`Suite::tags`]: for ChaCha20-Poly1305 all but sixteen.
    ///
    /// # Panics
    /// As [`Aead::new`].
    pub fn with_tag(suite: Suite, key: &[u8; KEY], len: usize) -> Result<Aead, NoSuchTag> {
        if !suite.tags().contains(&len) {
            return Err(NoSuchTag { suite, len });
        }
        let mut aead = Aead::new(suite, key);
        aead.tag = len;
        Ok(aead)
    }

    /// Encrypts `text` in place and writes the tag of `assoc` and `text`.
    ///
    /// # Panics
    /// Where `tag` has another length than the tags of this key, or libcrypto fails, so that nothing is
    /// sent unsealed. It has no cause to for a record; a part of 2 GiB or more is one.
    pub fn seal(&mut self, nonce: &[u8; NONCE], assoc: &[u8], text: &mut [u8], tag: &mut [u8]) {
        assert_eq!(tag.len(), self.tag, "the key's tags have another length");
        let went = self.begin(nonce, evp::ENCRYPT)
            && self.associate(assoc)
            && self.convert(text)
            && self.finish()
            && self.tag(evp::GET_TAG, tag);
        assert!(went, "libcrypto did not seal a record");
    }

    /// Decrypts `text` in place and answers whether the tag is that of `assoc` and `text`; it is not where
    /// its length is not that of the key's tags. On a no the text is cleared, since what was decrypted is
    /// nobody's.
    #[must_use]
    pub fn open(&mut self, nonce: &[u8; NONCE], assoc: &[u8], text: &mut [u8], tag: &[u8]) -> bool {
        let yes = tag.len() == self.tag
            && self.begin(nonce, evp::DECRYPT)
            && self.associate(assoc)
            && self.convert(text)
            && self.expect(tag)
            && self.finish();
        if !yes {
            text.fill(0);
        }
        yes
    }

    /// A new record: its nonce and direction, under the key that the context has.
    fn begin(&mut self, nonce: &[u8; NONCE], direction: c_int) -> bool {
        // SAFETY: the context is alive, and both ciphers read a nonce of the 12 bytes that it has.
        let went = unsafe {
            evp::EVP_CipherInit_ex(
                self.context.as_ptr(),
                null(),
                null_mut(),
                null(),
                nonce.as_ptr(),
                direction,
            )
        };
        went == 1
    }

    /// The associated data.
    fn associate(&mut self, assoc: &[u8]) -> bool {
        // SAFETY: no output is asked for, which is how libcrypto is given associated data.
        unsafe { self.update(null_mut(), assoc.as_ptr(), assoc.len()) }
    }

    /// The text, in place.
    fn convert(&mut self, text: &mut [u8]) -> bool {
        let start = text.as_mut_ptr();
        // SAFETY: input and output are the same bytes of one slice, which libcrypto allows, and it
        // writes as many bytes as it reads.
        unsafe { self.update(start, start, text.len()) }
    }

    /// Bytes from `input`, converted to `out` where that is not null. No bytes need no call.
    ///
    /// # Safety
    /// `input` has `len` bytes, and `out` is null or has room for as many.
    unsafe fn update(&mut self, out: *mut u8, input: *const u8, len: usize) -> bool {
        let context = self.context.as_ptr();
        let mut wrote: c_int = 0;
        match c_int::try_from(len) {
            Ok(0) => true,
            // SAFETY: the context is alive, and the caller answers for the two pointers.
            Ok(len) => unsafe { evp::EVP_CipherUpdate(context, out, &mut wrote, input, len) == 1 },
            Err(_) => false,
        }
    }

    /// The end of a record. Decrypting, it says whether the tag that was set is right.
    fn finish(&mut self) -> bool {
        // Both ciphers write nothing here; libcrypto still asks for a block's room.
        let mut rest = [0u8; 32];
        let mut wrote: c_int = 0;
        // SAFETY: the context is alive, and `rest` has more than one block of either cipher.
        unsafe {
            evp::EVP_CipherFinal_ex(self.context.as_ptr(), rest.as_mut_ptr(), &mut wrote) == 1
        }
    }

    /// Sets the tag that the record must have.
    fn expect(&mut self, tag: &[u8]) -> bool {
        // libcrypto asks for a tag that it may write to.
        let mut room = [0u8; TAG];
        let copy = &mut room[..tag.len()];
        copy.copy_from_slice(tag);
        self.tag(evp::SET_TAG, copy)
    }

    /// Gets or sets the tag: its first bytes, as many as `tag` has, which is at most 16.
    fn tag(&mut self, command: c_int, tag: &mut [u8]) -> bool {
        // SAFETY: the context is alive, and both commands use as many bytes as they are told that `tag` has.
        let went = unsafe {
            evp::EVP_CIPHER_CTX_ctrl(
                self.context.as_ptr(),
                command,
                tag.len() as c_int,
                tag.as_mut_ptr().cast(),
            )
        };
        went == 1
    }
}

impl Drop for Aead {
    fn drop(&mut self) {
        // SAFETY: `new` made the context, and nothing else has it.
        unsafe { evp::EVP_CIPHER_CTX_free(self.context.as_ptr()) }
    }
}
