//! The host's side of an ask: read it off the desk, do the cipher's work on the part it names.

use chacha20poly1305::{AeadInPlace, ChaCha20Poly1305, Key, KeyInit, Nonce, Tag};

use crate::{Desk, Told};

/// An ask as the library put it, with the part as it stood and the answer that the cipher gave.
#[derive(Debug, Clone, PartialEq, Eq)]
pub struct Ask {
    pub seal: bool,
    pub key: [u8; 32],
    pub nonce: [u8; 12],
    pub additional: Vec<u8>,
    pub start: usize,
    pub end: usize,
    pub text: Vec<u8>,
    /// The tag to check, for an open only.
    pub tag: Option<[u8; 16]>,
    pub granted: bool,
}

/// Reads the ask on the desk; an error says why it is none that a host could answer.
pub fn ask_on(desk: &Desk, told: &Told, buffer: &[u8]) -> Result<Ask, String> {
    let [work, size, start, end] = [desk[8], desk[9], desk[10], desk[11]];
    if work > 1 {
        return Err(format!("an ask for work {work}"));
    }
    if size > 22 {
        return Err(format!("an ask with {size} bytes of additional data"));
    }
    let whole = start.checked_add(16).is_some_and(|least| least <= end);
    if !whole || end > buffer.len() as u64 {
        let len = buffer.len();
        return Err(format!("an ask for {start} to {end} of {len} bytes"));
    }
    let (start, end) = (start as usize, end as usize);
    let seal = work == 1;
    Ok(Ask {
        seal,
        key: array(&told[..32]),
        nonce: array(&told[32..44]),
        additional: told[44..44 + size as usize].to_vec(),
        start,
        end,
        text: buffer[start..end - 16].to_vec(),
        tag: (!seal).then(|| array(&buffer[end - 16..end])),
        granted: false,
    })
}

/// Does the work in place, with nothing but what the ask says, and notes the answer in it.
pub fn answer(ask: &mut Ask, buffer: &mut [u8]) {
    let cipher = ChaCha20Poly1305::new(Key::from_slice(&ask.key));
    let nonce = Nonce::from(ask.nonce);
    let (text, tag) = buffer[ask.start..ask.end].split_at_mut(ask.end - ask.start - 16);
    ask.granted = if ask.seal {
        match cipher.encrypt_in_place_detached(&nonce, &ask.additional, text) {
            Ok(made) => {
                tag.copy_from_slice(&made);
                true
            }
            Err(_) => false,
        }
    } else {
        let tag = Tag::from_slice(tag);
        cipher
            .decrypt_in_place_detached(&nonce, &ask.additional, text, tag)
            .is_ok()
    };
}

fn array<const N: usize>(bytes: &[u8]) -> [u8; N] {
    bytes.try_into().expect("as many bytes as the array has")
}
