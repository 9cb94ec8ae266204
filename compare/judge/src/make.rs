//! Makes inputs by hand, so that the cases do not lean on the code that they try.

use chacha20poly1305::{AeadInPlace, ChaCha20Poly1305, Key as CipherKey, KeyInit, Nonce, Tag};

use crate::case::{Key, Window, EMPTY};

/// A packet in parts; `count` sequence bytes may be more than the sequence needs.
#[derive(Debug, Clone, PartialEq, Eq)]
pub struct Parts {
    pub kind: u8,
    pub count: usize,
    pub sequence: u64,
    pub body: Vec<u8>,
}

pub fn count_of(sequence: u64) -> usize {
    (64 - sequence.leading_zeros() as usize).div_ceil(8)
}

fn additional(prefix: u8, protocol: u64) -> [u8; 22] {
    let mut data = [0; 22];
    data[..13].copy_from_slice(b"NETCODE 1.02\0");
    data[13..21].copy_from_slice(&protocol.to_le_bytes());
    data[21] = prefix;
    data
}

fn nonce(sequence: u64) -> Nonce {
    let mut nonce = [0; 12];
    nonce[4..].copy_from_slice(&sequence.to_le_bytes());
    Nonce::from(nonce)
}

impl Parts {
    /// With as few sequence bytes as can be.
    pub fn new(kind: u8, sequence: u64, body: Vec<u8>) -> Self {
        Self {
            kind,
            count: count_of(sequence),
            sequence,
            body,
        }
    }

    /// The datagram under a good tag.
    pub fn seal(&self, protocol: u64, key: &Key) -> Vec<u8> {
        let prefix = self.kind | (self.count as u8) << 4;
        let mut datagram = vec![prefix];
        datagram.extend_from_slice(&self.sequence.to_le_bytes()[..self.count]);
        let mut body = self.body.clone();
        let tag = ChaCha20Poly1305::new(CipherKey::from_slice(key))
            .encrypt_in_place_detached(
                &nonce(self.sequence),
                &additional(prefix, protocol),
                &mut body,
            )
            .expect("nobody refuses seals here");
        datagram.extend_from_slice(&body);
        datagram.extend_from_slice(&tag);
        datagram
    }

    /// The parts of a datagram whose tag is good.
    pub fn open(datagram: &[u8], protocol: u64, key: &Key) -> Option<Self> {
        let prefix = *datagram.first()?;
        let count = usize::from(prefix >> 4);
        let start = 1 + count;
        if count > 8 || datagram.len() < start + 16 {
            return None;
        }
        let mut bytes = [0; 8];
        bytes[..count].copy_from_slice(&datagram[1..start]);
        let sequence = u64::from_le_bytes(bytes);
        let (text, tag) = datagram.split_at(datagram.len() - 16);
        let mut body = text[start..].to_vec();
        ChaCha20Poly1305::new(CipherKey::from_slice(key))
            .decrypt_in_place_detached(
                &nonce(sequence),
                &additional(prefix, protocol),
                &mut body,
                Tag::from_slice(tag),
            )
            .ok()?;
        Some(Self {
            kind: prefix & 15,
            count,
            sequence,
            body,
        })
    }
}

/// A challenge token under a good tag.
pub fn token(text: &[u8; 284], sequence: u64, key: &Key) -> Vec<u8> {
    let mut token = text.to_vec();
    let tag = ChaCha20Poly1305::new(CipherKey::from_slice(key))
        .encrypt_in_place_detached(&nonce(sequence), &[], &mut token)
        .expect("nobody refuses seals here");
    token.extend_from_slice(&tag);
    token
}

/// The text of a challenge token whose tag is good.
pub fn opened_token(token: &[u8; 300], sequence: u64, key: &Key) -> Option<[u8; 284]> {
    let (sealed, tag) = token.split_at(284);
    let mut text: [u8; 284] = sealed.try_into().expect("284 bytes");
    ChaCha20Poly1305::new(CipherKey::from_slice(key))
        .decrypt_in_place_detached(&nonce(sequence), &[], &mut text, Tag::from_slice(tag))
        .ok()?;
    Some(text)
}

/// Bytes that differ from place to place and from case to case.
pub fn pattern(len: usize, salt: u64) -> Vec<u8> {
    let step = salt as u8 | 1;
    (0..len)
        .map(|at| {
            (at as u8)
                .wrapping_mul(step)
                .wrapping_add((salt >> 8) as u8)
        })
        .collect()
}

pub const FRESH: Window = {
    let mut window = [EMPTY; 257];
    window[0] = 0;
    window
};

pub fn advance(window: &mut Window, sequence: u64) {
    window[0] = window[0].max(sequence);
    window[1 + (sequence % 256) as usize] = sequence;
}

/// A window that has accepted `step` by `step` the 256 sequences up to the highest.
pub fn reached(highest: u64, step: usize) -> Box<Window> {
    let mut window = FRESH;
    for behind in (0..256).step_by(step) {
        if let Some(sequence) = highest.checked_sub(behind) {
            advance(&mut window, sequence);
        }
    }
    Box::new(window)
}

#[cfg(test)]
mod tests {
    use super::*;

    #[test]
    fn what_is_sealed_opens() {
        let parts = Parts {
            kind: 5,
            count: 4,
            sequence: 0x0102,
            body: vec![7; 20],
        };
        let datagram = parts.seal(3, &[9; 32]);
        assert_eq!(datagram[..5], [0x45, 2, 1, 0, 0]);
        assert_eq!(Parts::open(&datagram, 3, &[9; 32]), Some(parts));
        assert_eq!(Parts::open(&datagram, 4, &[9; 32]), None);
    }

    #[test]
    fn the_fewest_bytes() {
        let counts = [0, 1, 255, 256, u64::MAX].map(count_of);
        assert_eq!(counts, [0, 1, 1, 2, 8]);
    }
}
