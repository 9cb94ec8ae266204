//! The few names of the `chacha20poly1305` crate that renetcode 2.0.0 uses, over libsodium.
//! `watch` and `seed` are not in the real crate: a harness needs them.

mod array;
mod random;
pub mod watch;

#[cfg_attr(feature = "idle", path = "idle.rs")]
mod engine;
#[cfg(not(feature = "idle"))]
mod sodium;

pub use aead::Error;
pub use array::Bytes;
pub use random::seed;

pub type Key = Bytes<32>;
pub type Nonce = Bytes<12>;
pub type XNonce = Bytes<24>;
pub type Tag = Bytes<16>;

pub type ChaCha20Poly1305 = Cipher<12>;
pub type XChaCha20Poly1305 = Cipher<24>;

pub mod aead {
    use std::fmt;

    pub use crate::random::OsRng;

    pub mod rand_core {
        pub use crate::random::RngCore;
    }

    /// The refusal of a seal or an open, which tells nothing, as in the real crate.
    #[derive(Debug, Clone, Copy, PartialEq, Eq)]
    pub struct Error;

    impl fmt::Display for Error {
        fn fmt(&self, f: &mut fmt::Formatter<'_>) -> fmt::Result {
            f.write_str("aead::Error")
        }
    }

    impl std::error::Error for Error {}
}

pub trait KeyInit {
    fn new(key: &Key) -> Self;
}

pub trait AeadInPlace {
    type Nonce;

    fn encrypt_in_place_detached(
        &self,
        nonce: &Self::Nonce,
        additional: &[u8],
        buffer: &mut [u8],
    ) -> Result<Tag, Error>;

    fn decrypt_in_place_detached(
        &self,
        nonce: &Self::Nonce,
        additional: &[u8],
        buffer: &mut [u8],
        tag: &Tag,
    ) -> Result<(), Error>;
}

/// The cipher with a nonce of `N` bytes: 12 for ChaCha20-Poly1305, 24 for XChaCha20-Poly1305.
pub struct Cipher<const N: usize> {
    key: [u8; 32],
}

impl<const N: usize> KeyInit for Cipher<N> {
    fn new(key: &Key) -> Self {
        Self {
            key: *key.as_array(),
        }
    }
}

impl<const N: usize> AeadInPlace for Cipher<N> {
    type Nonce = Bytes<N>;

    fn encrypt_in_place_detached(
        &self,
        nonce: &Bytes<N>,
        additional: &[u8],
        buffer: &mut [u8],
    ) -> Result<Tag, Error> {
        engine::seal(&self.key, nonce, additional, buffer).map(Tag::from)
    }

    fn decrypt_in_place_detached(
        &self,
        nonce: &Bytes<N>,
        additional: &[u8],
        buffer: &mut [u8],
        tag: &Tag,
    ) -> Result<(), Error> {
        engine::open(&self.key, nonce, additional, buffer, tag.as_array())
    }
}
