//! A server of ours with its host: tables of its own, and each ask answered by the same cipher as the Rust's,
//! in place, until the call is over.

use chacha20poly1305::{AeadInPlace, ChaCha20Poly1305, Key, KeyInit, Nonce, Tag};
use chacha20poly1305::{XChaCha20Poly1305, XNonce};

use crate::datagrams::{Lent, Said, Token, Told};
use crate::private::read_token;
use crate::servers::{self, Answer, Config};
use crate::tables::Address;

/// The case of an answer that is an ask, and where an answer says which part is meant.
pub const ASK: u64 = 2;
const WORK: usize = 9;
const NONCE_SIZE: usize = 10;
const ADDITIONAL_SIZE: usize = 11;
const PART: usize = 12;

const SEAL: u64 = 1;
const XNONCE_BYTES: u64 = 24;

/// Stands for a token where the host says no.
const NO_TOKEN: Token = Token {
    client_id: 0,
    timeout_seconds: 0,
    server_to_client_key: [0; 32],
    client_to_server_key: [0; 32],
    user_data: [0; 256],
    server_addresses: Vec::new(),
};

#[derive(Debug, Clone, PartialEq, Eq)]
pub struct Whole {
    pub lent: Lent,
}

impl Whole {
    /// Of so many slots, pending places and token entries, with an output of 1,400 bytes; or why not.
    pub fn new(config: &Config, places: [usize; 3], public: &[u64]) -> Result<Self, u8> {
        let [slots, pending, entries] = places;
        let mut lent = Lent {
            record: [0; 34],
            slots: vec![0; servers::slots_words(slots)],
            pending: vec![0; servers::pending_words(pending)],
            entries: vec![0; servers::entries_bytes(entries)],
            public: public.to_vec(),
            held: [0; 340],
            out: vec![0; 1400],
        };
        let refusal = servers::set_up(
            &mut lent.record,
            config,
            &mut lent.slots,
            &mut lent.pending,
            &mut lent.entries,
            public,
        );
        match refusal {
            0 => Ok(Self { lent }),
            refusal => Err(refusal),
        }
    }

    pub fn update(&mut self, step: [u64; 2]) -> Answer {
        servers::update(&mut self.lent.record, &mut self.lent.pending, step)
    }

    pub fn set_max_clients(&mut self, limit: u64) -> Answer {
        servers::set_max_clients(&mut self.lent.record, limit)
    }

    pub fn process_packet(&mut self, from: &Address, datagram: &mut [u8]) -> Answer {
        let said = self.lent.process_packet(from, datagram);
        self.settle(said, datagram)
    }

    pub fn generate_payload_packet(&mut self, client_id: u64, payload: &[u8]) -> Answer {
        let said = self.lent.generate_payload_packet(client_id, payload);
        self.settle(said, &mut [])
    }

    pub fn update_client(&mut self, client_id: u64) -> Answer {
        let said = self.lent.update_client(client_id);
        self.settle(said, &mut [])
    }

    pub fn disconnect(&mut self, client_id: u64) -> Answer {
        let said = self.lent.disconnect(client_id);
        self.settle(said, &mut [])
    }

    /// Answers until the call is over.
    pub fn settle(&mut self, mut said: Said, datagram: &mut [u8]) -> Answer {
        while said.0[0] == ASK {
            said = self.answer(&said, datagram);
        }
        said.0
    }

    /// Answers one ask.
    pub fn answer(&mut self, said: &Said, datagram: &mut [u8]) -> Said {
        let (answer, told) = said;
        if answer[WORK] == SEAL {
            let granted = work(answer, told, &mut self.lent.out);
            return self.lent.answer_seal(granted);
        }
        let granted = work(answer, told, datagram);
        if answer[NONCE_SIZE] != XNONCE_BYTES {
            return self.lent.answer_open(granted, datagram);
        }
        let token = granted
            .then(|| read_token(&datagram[part(answer)]))
            .flatten();
        let granted = token.is_some();
        let token = token.unwrap_or(NO_TOKEN);
        self.lent.answer_token(granted, &token, datagram)
    }
}

fn part(answer: &Answer) -> std::ops::Range<usize> {
    answer[PART] as usize..answer[PART + 1] as usize
}

/// The cipher's work in place; whether it says yes.
fn work(answer: &Answer, told: &Told, buffer: &mut [u8]) -> bool {
    let key = Key::from_slice(&told[..32]);
    let additional = &told[56..][..answer[ADDITIONAL_SIZE] as usize];
    let seal = answer[WORK] == SEAL;
    let part = &mut buffer[part(answer)];
    if answer[NONCE_SIZE] == XNONCE_BYTES {
        let nonce = XNonce::from_slice(&told[32..56]);
        return on_part(&XChaCha20Poly1305::new(key), nonce, additional, part, seal);
    }
    let nonce = Nonce::from_slice(&told[32..44]);
    on_part(&ChaCha20Poly1305::new(key), nonce, additional, part, seal)
}

fn on_part<C: AeadInPlace>(
    cipher: &C,
    nonce: &C::Nonce,
    additional: &[u8],
    part: &mut [u8],
    seal: bool,
) -> bool {
    let (text, tag) = part.split_at_mut(part.len() - 16);
    if !seal {
        let tag = Tag::from_slice(tag);
        let opened = cipher.decrypt_in_place_detached(nonce, additional, text, tag);
        return opened.is_ok();
    }
    match cipher.encrypt_in_place_detached(nonce, additional, text) {
        Ok(made) => {
            tag.copy_from_slice(&made);
            true
        }
        Err(_) => false,
    }
}
