use crate::watch::{self, Asked};
use crate::{sodium, Error};

pub fn seal(
    key: &[u8; 32],
    nonce: &[u8],
    additional: &[u8],
    buffer: &mut [u8],
) -> Result<[u8; 16], Error> {
    let granted = !watch::seal_is_refused();
    watch::note(|| Asked {
        seal: true,
        key: *key,
        nonce: nonce.to_vec(),
        additional: additional.to_vec(),
        text: buffer.to_vec(),
        tag: None,
        place: buffer.as_ptr() as usize,
        granted,
    });
    if granted {
        Ok(sodium::seal(key, nonce, additional, buffer))
    } else {
        Err(Error)
    }
}

/// Verifies before it decrypts, because libsodium zeroes the buffer of a wrong tag and the real
/// crate leaves it.
pub fn open(
    key: &[u8; 32],
    nonce: &[u8],
    additional: &[u8],
    buffer: &mut [u8],
    tag: &[u8; 16],
) -> Result<(), Error> {
    let granted = !watch::ask_is_refused() && sodium::verify(key, nonce, additional, buffer, tag);
    watch::note(|| Asked {
        seal: false,
        key: *key,
        nonce: nonce.to_vec(),
        additional: additional.to_vec(),
        text: buffer.to_vec(),
        tag: Some(*tag),
        place: buffer.as_ptr() as usize,
        granted,
    });
    if granted && sodium::open(key, nonce, additional, buffer, tag) {
        Ok(())
    } else {
        Err(Error)
    }
}
