//! The ciphers as a host of ours has them: the very functions that the Rust's side calls.

use std::marker::PhantomData;

use chacha20poly1305::{AeadInPlace, Bytes, Key, KeyInit, Tag};
use netcode::{Cipher, Nonce, Part, Terms};

/// A host with a cipher for packets and one for tokens.
pub struct Host<P, T>(PhantomData<(P, T)>);

pub type Idle = Host<chacha20poly1305::ChaCha20Poly1305, chacha20poly1305::XChaCha20Poly1305>;
pub type Sodium = Host<sodium::ChaCha20Poly1305, sodium::XChaCha20Poly1305>;

impl<P, T> Default for Host<P, T> {
    fn default() -> Self {
        Self(PhantomData)
    }
}

impl<P, T> Cipher for Host<P, T>
where
    P: KeyInit + AeadInPlace<Nonce = Bytes<12>>,
    T: KeyInit + AeadInPlace<Nonce = Bytes<24>>,
{
    fn open(&mut self, terms: &Terms<'_>, part: Part<'_>) -> bool {
        match terms.nonce {
            Nonce::Packet(nonce) => open::<P, 12>(terms, nonce, part),
            Nonce::Token(nonce) => open::<T, 24>(terms, nonce, part),
        }
    }

    fn seal(&mut self, terms: &Terms<'_>, part: Part<'_>) -> bool {
        match terms.nonce {
            Nonce::Packet(nonce) => seal::<P, 12>(terms, nonce, part),
            Nonce::Token(nonce) => seal::<T, 24>(terms, nonce, part),
        }
    }
}

fn open<A, const N: usize>(terms: &Terms<'_>, nonce: &[u8; N], part: Part<'_>) -> bool
where
    A: KeyInit + AeadInPlace<Nonce = Bytes<N>>,
{
    A::new(Key::from_slice(terms.key))
        .decrypt_in_place_detached(
            Bytes::from_slice(nonce),
            terms.additional,
            part.text,
            Tag::from_slice(part.tag),
        )
        .is_ok()
}

fn seal<A, const N: usize>(terms: &Terms<'_>, nonce: &[u8; N], part: Part<'_>) -> bool
where
    A: KeyInit + AeadInPlace<Nonce = Bytes<N>>,
{
    let nonce = Bytes::from_slice(nonce);
    let sealed = A::new(Key::from_slice(terms.key)).encrypt_in_place_detached(
        nonce,
        terms.additional,
        part.text,
    );
    match sealed {
        Ok(tag) => part.tag.copy_from_slice(&tag),
        Err(_) => return false,
    }
    true
}
