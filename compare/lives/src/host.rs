//! The host's part: the cipher's work in place, on what our ask names and nothing else, and the private token read.

use chacha20poly1305::{
    AeadInPlace, ChaCha20Poly1305, Key, KeyInit, Nonce, Tag, XChaCha20Poly1305, XNonce,
};
use oracle::lives::Private;

use crate::addresses::three_words;
use crate::ours::Ours;

/// What an ask wants answered.
#[derive(Debug, Clone, Copy, PartialEq, Eq)]
pub enum Kind {
    Open,
    Token,
    Seal,
}

pub fn kind_of(words: &[u64; 14]) -> Kind {
    match (words[9], words[10]) {
        (0, 24) => Kind::Token,
        (0, _) => Kind::Open,
        _ => Kind::Seal,
    }
}

/// What the host says to an ask; the token's fields are those of nobody where it says no.
pub struct Said {
    pub granted: bool,
    pub token: Private,
    pub addresses: Vec<u64>,
}

impl Said {
    /// A yes for the token of nobody, with no addresses.
    pub fn nobody() -> Self {
        Self {
            granted: true,
            token: nobody(),
            addresses: Vec::new(),
        }
    }
}

pub fn nobody() -> Private {
    Private {
        client_id: 0,
        timeout_seconds: 0,
        addresses: Vec::new(),
        client_to_server_key: [0; 32],
        server_to_client_key: [0; 32],
        user_data: [0; 256],
    }
}

/// Does the work that our ask wants, unless the host is to say no. The ask is as the Rust's, so its numbers fit the buffers.
pub fn work(ours: &mut Ours, no: bool) -> Said {
    let [start, end] = [ours.answer[12] as usize, ours.answer[13] as usize];
    let kind = kind_of(&ours.answer);
    let told = ours.told;
    let additional = &told[56..56 + ours.answer[11] as usize];
    let part = match kind {
        Kind::Seal => &mut ours.out[start..end],
        Kind::Open | Kind::Token => &mut ours.datagram[start..end],
    };
    let granted = !no && cipher(kind, &told, additional, part);
    let token = (granted && kind == Kind::Token)
        .then(|| Private::read(part))
        .flatten();
    let granted = granted && (kind != Kind::Token || token.is_some());
    let token = token.unwrap_or_else(nobody);
    let addresses = token
        .addresses
        .iter()
        .copied()
        .flat_map(three_words)
        .collect();
    Said {
        granted,
        token,
        addresses,
    }
}

fn cipher(kind: Kind, told: &[u8; 85], additional: &[u8], part: &mut [u8]) -> bool {
    let key = Key::from_slice(&told[..32]);
    let (text, tag) = part.split_at_mut(part.len() - 16);
    let nonce = Nonce::from_slice(&told[32..44]);
    match kind {
        Kind::Seal => {
            let sealed =
                ChaCha20Poly1305::new(key).encrypt_in_place_detached(nonce, additional, text);
            if let Ok(made) = &sealed {
                tag.copy_from_slice(made);
            }
            sealed.is_ok()
        }
        Kind::Open => {
            let cipher = ChaCha20Poly1305::new(key);
            let tag = Tag::from_slice(tag);
            let opened = cipher.decrypt_in_place_detached(nonce, additional, text, tag);
            opened.is_ok()
        }
        Kind::Token => {
            let cipher = XChaCha20Poly1305::new(key);
            let (nonce, tag) = (XNonce::from_slice(&told[32..56]), Tag::from_slice(tag));
            let opened = cipher.decrypt_in_place_detached(nonce, additional, text, tag);
            opened.is_ok()
        }
    }
}

/// Hands the host's word to the call that the ask wants.
pub fn answer(ours: &mut Ours, kind: Kind, said: &Said) {
    match kind {
        Kind::Open => ours.answer_open(said.granted),
        Kind::Token => ours.answer_token(said.granted, &said.token, &said.addresses),
        Kind::Seal => ours.answer_seal(said.granted),
    }
}
