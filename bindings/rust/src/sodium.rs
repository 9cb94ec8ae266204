use crate::{sys, Cipher, Nonce, Part, Terms};

/// libsodium, from Debian's libsodium-dev or another 1.0.18 or later.
#[derive(Debug, Clone, Copy)]
pub struct Sodium(());

impl Sodium {
    /// Panics where libsodium does not start, which needs a system without randomness.
    pub fn new() -> Self {
        sys::start();
        Self(())
    }
}

impl Default for Sodium {
    fn default() -> Self {
        Self::new()
    }
}

/// Key and nonce of ChaCha20-Poly1305; XChaCha20-Poly1305 is the same cipher under a key and nonce made from its own.
fn packet_terms(terms: &Terms<'_>) -> ([u8; 32], [u8; 12]) {
    match terms.nonce {
        Nonce::Packet(nonce) => (*terms.key, *nonce),
        Nonce::Token(nonce) => {
            let (first, last) = nonce.split_first_chunk().expect("16 of 24 bytes");
            let mut short = [0; 12];
            short[4..].copy_from_slice(last);
            (sys::subkey(terms.key, first), short)
        }
    }
}

impl Cipher for Sodium {
    /// In the two steps that libsodium's own open takes: that one zeroes the buffer of a wrong tag between them, and renetcode's
    /// cipher leaves it.
    fn open(&mut self, terms: &Terms<'_>, part: Part<'_>) -> bool {
        let (key, nonce) = packet_terms(terms);
        let granted = sys::verify(&key, &nonce, terms.additional, part.text, part.tag);
        if granted {
            sys::open_stream(&key, &nonce, part.text);
        }
        granted
    }

    fn seal(&mut self, terms: &Terms<'_>, part: Part<'_>) -> bool {
        let (key, nonce) = packet_terms(terms);
        *part.tag = sys::seal(&key, &nonce, terms.additional, part.text);
        true
    }
}
