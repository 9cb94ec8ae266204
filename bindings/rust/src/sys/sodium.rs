//! The six calls of libsodium that the host needs.

use std::ffi::{c_int, c_uchar, c_ulonglong, c_void};
use std::ptr::{null, null_mut};

extern "C" {
    fn sodium_init() -> c_int;
    fn randombytes_buf(buf: *mut c_void, size: usize);
    fn crypto_core_hchacha20(
        out: *mut c_uchar,
        input: *const c_uchar,
        key: *const c_uchar,
        constant: *const c_uchar,
    ) -> c_int;
    fn crypto_stream_chacha20_ietf_xor_ic(
        to: *mut c_uchar,
        from: *const c_uchar,
        len: c_ulonglong,
        nonce: *const c_uchar,
        block: u32,
        key: *const c_uchar,
    ) -> c_int;
    fn crypto_aead_chacha20poly1305_ietf_encrypt_detached(
        sealed: *mut c_uchar,
        tag: *mut c_uchar,
        tag_len: *mut c_ulonglong,
        text: *const c_uchar,
        text_len: c_ulonglong,
        additional: *const c_uchar,
        additional_len: c_ulonglong,
        unused: *const c_uchar,
        nonce: *const c_uchar,
        key: *const c_uchar,
    ) -> c_int;
    fn crypto_aead_chacha20poly1305_ietf_decrypt_detached(
        text: *mut c_uchar,
        unused: *mut c_uchar,
        sealed: *const c_uchar,
        sealed_len: c_ulonglong,
        tag: *const c_uchar,
        additional: *const c_uchar,
        additional_len: c_ulonglong,
        nonce: *const c_uchar,
        key: *const c_uchar,
    ) -> c_int;
}

/// Lets libsodium choose its fastest code and open its source of randomness; it may be called again.
pub fn start() {
    // SAFETY: no precondition, and any thread may call it.
    let code = unsafe { sodium_init() };
    assert!(code >= 0, "libsodium does not start");
}

pub fn random(bytes: &mut [u8]) {
    // SAFETY: the pointer stands with its own slice's length.
    unsafe { randombytes_buf(bytes.as_mut_ptr().cast(), bytes.len()) }
}

/// HChaCha20: the key that XChaCha20 works under, from the first 16 bytes of its nonce.
pub fn subkey(key: &[u8; 32], nonce: &[u8; 16]) -> [u8; 32] {
    let mut made = [0; 32];
    // SAFETY: 32 bytes out of 16 and 32; without a constant it takes its own.
    unsafe { crypto_core_hchacha20(made.as_mut_ptr(), nonce.as_ptr(), key.as_ptr(), null()) };
    made
}

/// Seals in place and gives the tag.
pub fn seal(key: &[u8; 32], nonce: &[u8; 12], additional: &[u8], text: &mut [u8]) -> [u8; 16] {
    let mut tag = [0; 16];
    let place = text.as_mut_ptr();
    // SAFETY: every pointer stands with its own slice's length, and a text may be sealed in place.
    unsafe {
        crypto_aead_chacha20poly1305_ietf_encrypt_detached(
            place,
            tag.as_mut_ptr(),
            null_mut(),
            place,
            text.len() as c_ulonglong,
            additional.as_ptr(),
            additional.len() as c_ulonglong,
            null(),
            nonce.as_ptr(),
            key.as_ptr(),
        )
    };
    tag
}

/// Whether the tag fits; nothing is opened.
pub fn verify(
    key: &[u8; 32],
    nonce: &[u8; 12],
    additional: &[u8],
    sealed: &[u8],
    tag: &[u8; 16],
) -> bool {
    // SAFETY: every pointer stands with its own slice's length, and without a place for the text it only reads.
    let code = unsafe {
        crypto_aead_chacha20poly1305_ietf_decrypt_detached(
            null_mut(),
            null_mut(),
            sealed.as_ptr(),
            sealed.len() as c_ulonglong,
            tag.as_ptr(),
            additional.as_ptr(),
            additional.len() as c_ulonglong,
            nonce.as_ptr(),
            key.as_ptr(),
        )
    };
    code == 0
}

/// The stream from block 1 on, where the text's begins, over what was verified.
pub fn open_stream(key: &[u8; 32], nonce: &[u8; 12], text: &mut [u8]) {
    let place = text.as_mut_ptr();
    // SAFETY: every pointer stands with its own slice's length, and the stream may be laid over in place.
    unsafe {
        crypto_stream_chacha20_ietf_xor_ic(
            place,
            place,
            text.len() as c_ulonglong,
            nonce.as_ptr(),
            1,
            key.as_ptr(),
        )
    };
}
