//! The few functions of libcrypto that are used, declared by hand: no crate from a registry is needed.
//! Each function that answers a `c_int` answers 1 where it went well.
use std::ffi::c_void;
use std::os::raw::{c_int, c_uchar};

/// `EVP_CIPHER_CTX`: a key schedule and the record under way.
#[repr(C)]
pub struct Context {
    _opaque: [u8; 0],
}

/// `EVP_CIPHER`: a cipher's description.
#[repr(C)]
pub struct Cipher {
    _opaque: [u8; 0],
}

/// `EVP_CTRL_AEAD_GET_TAG`.
pub const GET_TAG: c_int = 0x10;
/// `EVP_CTRL_AEAD_SET_TAG`.
pub const SET_TAG: c_int = 0x11;
/// The direction of `EVP_CipherInit_ex`: encrypt.
pub const ENCRYPT: c_int = 1;
/// The direction of `EVP_CipherInit_ex`: decrypt.
pub const DECRYPT: c_int = 0;

extern "C" {
    pub fn EVP_CIPHER_CTX_new() -> *mut Context;
    pub fn EVP_CIPHER_CTX_free(context: *mut Context);
    pub fn EVP_aes_256_gcm() -> *const Cipher;
    pub fn EVP_chacha20_poly1305() -> *const Cipher;
    pub fn EVP_CipherInit_ex(
        context: *mut Context,
        cipher: *const Cipher,
        engine: *mut c_void,
        key: *const c_uchar,
        iv: *const c_uchar,
        direction: c_int,
    ) -> c_int;
    pub fn EVP_CipherUpdate(
        context: *mut Context,
        out: *mut c_uchar,
        out_len: *mut c_int,
        input: *const c_uchar,
        input_len: c_int,
    ) -> c_int;
    pub fn EVP_CipherFinal_ex(
        context: *mut Context,
        out: *mut c_uchar,
        out_len: *mut c_int,
    ) -> c_int;
    pub fn EVP_CIPHER_CTX_ctrl(
        context: *mut Context,
        command: c_int,
        argument: c_int,
        pointer: *mut c_void,
    ) -> c_int;
}
