use crate::NETCODE_KEY_BYTES;

/// The nonce of an open or a seal; its length says which cipher is meant.
#[derive(Debug, Clone, Copy, PartialEq, Eq)]
pub enum Nonce<'t> {
    /// ChaCha20-Poly1305 (RFC 8439): packets and challenge tokens.
    Packet(&'t [u8; 12]),
    /// XChaCha20-Poly1305: private tokens.
    Token(&'t [u8; 24]),
}

/// What an open or a seal is done under.
#[derive(Clone, Copy)]
pub struct Terms<'t> {
    /// The key.
    pub key: &'t [u8; NETCODE_KEY_BYTES],
    /// The nonce.
    pub nonce: Nonce<'t>,
    /// The additional data, which the tag covers too.
    pub additional: &'t [u8],
}

/// The part of a buffer that the cipher works on, in place.
#[derive(Debug, PartialEq, Eq)]
pub struct Part<'b> {
    /// What is to be opened or sealed.
    pub text: &'b mut [u8],
    /// The tag: to be checked by an open, to be written by a seal.
    pub tag: &'b mut [u8; 16],
}

/// The cipher that the server asks.
pub trait Cipher {
    /// Opens the part in place and says yes; or, where the tag is wrong, leaves it as it is and says no.
    fn open(&mut self, terms: &Terms<'_>, part: Part<'_>) -> bool;

    /// Seals the part in place, writes its tag and says yes; a no means that no packet is sent.
    fn seal(&mut self, terms: &Terms<'_>, part: Part<'_>) -> bool;
}
