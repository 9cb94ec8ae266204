//! libsodium's two pairs of functions; the length of the nonce tells which pair is meant.

use std::ffi::{c_int, c_ulonglong};
use std::ptr::{null, null_mut};
use std::sync::Once;

type Seal = unsafe extern "C" fn(
    sealed: *mut u8,
    tag: *mut u8,
    tag_len: *mut c_ulonglong,
    text: *const u8,
    text_len: c_ulonglong,
    additional: *const u8,
    additional_len: c_ulonglong,
    unused: *const u8,
    nonce: *const u8,
    key: *const u8,
) -> c_int;

type Open = unsafe extern "C" fn(
    text: *mut u8,
    unused: *mut u8,
    sealed: *const u8,
    sealed_len: c_ulonglong,
    tag: *const u8,
    additional: *const u8,
    additional_len: c_ulonglong,
    nonce: *const u8,
    key: *const u8,
) -> c_int;

#[link(name = "sodium")]
extern "C" {
    fn sodium_init() -> c_int;
    fn crypto_aead_chacha20poly1305_ietf_encrypt_detached(
        sealed: *mut u8,
        tag: *mut u8,
        tag_len: *mut c_ulonglong,
        text: *const u8,
        text_len: c_ulonglong,
        additional: *const u8,
        additional_len: c_ulonglong,
        unused: *const u8,
        nonce: *const u8,
        key: *const u8,
    ) -> c_int;
    fn crypto_aead_chacha20poly1305_ietf_decrypt_detached(
        text: *mut u8,
        unused: *mut u8,
        sealed: *const u8,
        sealed_len: c_ulonglong,
        tag: *const u8,
        additional: *const u8,
        additional_len: c_ulonglong,
        nonce: *const u8,
        key: *const u8,
    ) -> c_int;
    fn crypto_aead_xchacha20poly1305_ietf_encrypt_detached(
        sealed: *mut u8,
        tag: *mut u8,
        tag_len: *mut c_ulonglong,
        text: *const u8,
        text_len: c_ulonglong,
        additional: *const u8,
        additional_len: c_ulonglong,
        unused: *const u8,
        nonce: *const u8,
        key: *const u8,
    ) -> c_int;
    fn crypto_aead_xchacha20poly1305_ietf_decrypt_detached(
        text: *mut u8,
        unused: *mut u8,
        sealed: *const u8,
        sealed_len: c_ulonglong,
        tag: *const u8,
        additional: *const u8,
        additional_len: c_ulonglong,
        nonce: *const u8,
        key: *const u8,
    ) -> c_int;
}

static READY: Once = Once::new();

fn pair(nonce: &[u8]) -> (Seal, Open) {
    // SAFETY: the call has no preconditions.
    READY.call_once(|| assert!(unsafe { sodium_init() } >= 0, "libsodium does not start"));
    match nonce.len() {
        12 => (
            crypto_aead_chacha20poly1305_ietf_encrypt_detached,
            crypto_aead_chacha20poly1305_ietf_decrypt_detached,
        ),
        24 => (
            crypto_aead_xchacha20poly1305_ietf_encrypt_detached,
            crypto_aead_xchacha20poly1305_ietf_decrypt_detached,
        ),
        other => unreachable!("a nonce of {other} bytes"),
    }
}

pub fn seal(key: &[u8; 32], nonce: &[u8], additional: &[u8], buffer: &mut [u8]) -> [u8; 16] {
    let (seal, _) = pair(nonce);
    let mut tag = [0; 16];
    let text = buffer.as_mut_ptr();
    // SAFETY: every pointer stands with the length of its own slice, and text may be sealed in place.
    let code = unsafe {
        seal(
            text,
            tag.as_mut_ptr(),
            null_mut(),
            text,
            buffer.len() as c_ulonglong,
            additional.as_ptr(),
            additional.len() as c_ulonglong,
            null(),
            nonce.as_ptr(),
            key.as_ptr(),
        )
    };
    assert_eq!(code, 0, "libsodium refuses no seal");
    tag
}

pub fn verify(
    key: &[u8; 32],
    nonce: &[u8],
    additional: &[u8],
    buffer: &[u8],
    tag: &[u8; 16],
) -> bool {
    // SAFETY: without a place for the text libsodium only reads.
    unsafe {
        open_into(
            null_mut(),
            buffer.as_ptr(),
            buffer.len(),
            key,
            nonce,
            additional,
            tag,
        )
    }
}

pub fn open(
    key: &[u8; 32],
    nonce: &[u8],
    additional: &[u8],
    buffer: &mut [u8],
    tag: &[u8; 16],
) -> bool {
    let text = buffer.as_mut_ptr();
    // SAFETY: text may be opened in place.
    unsafe { open_into(text, text, buffer.len(), key, nonce, additional, tag) }
}

/// `sealed` must hold `len` bytes, and `text` as many or be null.
unsafe fn open_into(
    text: *mut u8,
    sealed: *const u8,
    len: usize,
    key: &[u8; 32],
    nonce: &[u8],
    additional: &[u8],
    tag: &[u8; 16],
) -> bool {
    let (_, open) = pair(nonce);
    let code = open(
        text,
        null_mut(),
        sealed,
        len as c_ulonglong,
        tag.as_ptr(),
        additional.as_ptr(),
        additional.len() as c_ulonglong,
        nonce.as_ptr(),
        key.as_ptr(),
    );
    code == 0
}
