//! Sealed packets: good, repeated, old, forged, cut, padded, of every type.

use chacha20poly1305::{AeadInPlace, ChaCha20Poly1305, Key, KeyInit, Nonce};
use oracle::calls::{additional_data, encode, sequence_bytes_required, Answer, Fields};
use oracle::lives::{self, NetcodeServer};
use oracle::raw::Packet;

use super::client::stranger;
use super::{slot_at, World};
use crate::call::Call;
use crate::poke::WINDOW;

/// A packet of the original's own making.
pub fn encoded(fields: &Fields, protocol: u64, key: &[u8; 32], sequence: u64) -> Vec<u8> {
    match encode(vec![0; 1500], fields, protocol, Some(key), sequence) {
        Answer::Is(mut encoded) => {
            let len = encoded.result.expect("room for a packet");
            encoded.out.truncate(len);
            encoded.out
        }
        Answer::Panicked { .. } => panic!("the Rust panics at a good packet"),
    }
}

/// Any type, any count of sequence bytes from the fewest to 8, any body, under a good tag.
fn sealed(
    kind: u8,
    count: usize,
    sequence: u64,
    body: &[u8],
    protocol: u64,
    key: &[u8; 32],
) -> Vec<u8> {
    let prefix = kind | (count as u8) << 4;
    let mut nonce = [0; 12];
    nonce[4..].copy_from_slice(&sequence.to_le_bytes());
    let cipher = ChaCha20Poly1305::new(Key::from_slice(key));
    let mut text = body.to_vec();
    let additional = additional_data(prefix, protocol);
    let tag = cipher.encrypt_in_place_detached(&Nonce::from(nonce), &additional, &mut text);
    let mut packet = vec![prefix];
    packet.extend_from_slice(&sequence.to_le_bytes()[..count]);
    packet.extend_from_slice(&text);
    packet.extend_from_slice(&tag.expect("a cipher that seals"));
    packet
}

impl World {
    /// The key that the server expects of this client: its record's, else its token's.
    fn key_of(&self, server: &NetcodeServer, who: usize) -> [u8; 32] {
        let client = &self.clients[who];
        let row = match slot_at(server, client.from) {
            Some(slot) => lives::slot(server, slot),
            None => lives::pending_at(server, client.from),
        };
        match row {
            Some(row) => {
                let mut key = [0; 32];
                for (eight, word) in key.chunks_mut(8).zip(&row.2[5..9]) {
                    eight.copy_from_slice(&word.to_le_bytes());
                }
                key
            }
            None => client.token.private.client_to_server_key,
        }
    }

    fn send(&mut self, who: usize, bytes: Vec<u8>) -> Call {
        self.clients[who].remember(&bytes);
        let from = self.clients[who].from;
        Call::Datagram { from, bytes }
    }

    fn next_sequence(&mut self, who: usize) -> u64 {
        let sequence = self.clients[who].sequence;
        self.clients[who].sequence = sequence.wrapping_add(1);
        sequence
    }

    pub fn good_packet(&mut self, server: &NetcodeServer, who: usize) -> Call {
        let sequence = self.next_sequence(who);
        let key = self.key_of(server, who);
        let kind = self.rng.pick(&[4, 5, 5, 5]);
        let len = self.rng.pick(&[0, 1, 20, 300, 1300]);
        let fields = Fields {
            kind,
            a: if kind == 4 { 3 } else { 0 },
            b: 0,
            bytes: if kind == 4 {
                Vec::new()
            } else {
                self.rng.bytes(len)
            },
        };
        let bytes = encoded(&fields, self.start.protocol, &key, sequence);
        self.send(who, bytes)
    }

    /// The challenge that the client was sent, or one that it could have been.
    fn challenge(&mut self, server: &NetcodeServer, who: usize) -> (u64, [u8; 300]) {
        let kept = self.clients[who].challenge;
        if let (Some(kept), false) = (kept, self.rng.one_in(5)) {
            return kept;
        }
        let id = match self.rng.below(3) {
            0 => self.draw_id(server),
            _ => self.clients[who].token.private.client_id,
        };
        let key = lives::kept(server).challenge_key;
        let sequence = self.rng.number();
        let made = Packet::generate_challenge(id, &self.rng.array(), sequence, &key);
        match made {
            Ok(Packet::Challenge {
                token_sequence,
                token_data,
            }) => (token_sequence, token_data),
            _ => panic!("the Rust makes no challenge"),
        }
    }

    pub fn good_response(&mut self, server: &NetcodeServer, who: usize) -> Call {
        let (a, token) = self.challenge(server, who);
        let key = self.key_of(server, who);
        let sequence = self.next_sequence(who);
        let fields = Fields {
            kind: 3,
            a,
            b: 0,
            bytes: token.to_vec(),
        };
        let bytes = encoded(&fields, self.start.protocol, &key, sequence);
        self.send(who, bytes)
    }

    /// Around the window's edges, near the end of all sequences, or anywhere.
    fn draw_sequence(&mut self, server: &NetcodeServer, who: usize) -> u64 {
        let from = self.clients[who].from;
        let row = match slot_at(server, from) {
            Some(slot) => lives::slot(server, slot),
            None => lives::pending_at(server, from),
        };
        let highest = row.map_or(0, |row| row.2[WINDOW]);
        match self.rng.below(24) {
            0..=4 => self.next_sequence(who),
            5..=7 => highest.saturating_sub(254 + self.rng.below(4) as u64),
            8 => highest.saturating_sub(self.rng.below(300) as u64),
            9 => highest,
            10 => highest.saturating_add(1),
            11 | 12 => highest.saturating_add(self.rng.pick(&[2, 255, 256, 257, 1000])),
            13 => u64::MAX - self.rng.below(4) as u64,
            14 => u64::MAX - 253 - self.rng.below(5) as u64,
            15 if self.rng.one_in(4) => u64::MAX - 256,
            16 => 0,
            17 => self.rng.near_byte(1),
            18 if self.rng.one_in(4) => self.rng.number(),
            _ => highest.saturating_add(self.rng.below(3) as u64),
        }
    }

    fn draw_body(&mut self, server: &NetcodeServer, who: usize, kind: u8) -> Vec<u8> {
        let mut body = match kind {
            2 | 3 => {
                let (sequence, token) = self.challenge(server, who);
                [&sequence.to_le_bytes()[..], &token].concat()
            }
            4 => self.rng.bytes(8),
            5 => {
                let len = self.rng.pick(&[0, 1, 17, 200]);
                self.rng.bytes(len)
            }
            _ => Vec::new(),
        };
        match self.rng.below(8) {
            0 => body.extend(vec![1; 1 + self.rng.below(4)]),
            1 if !body.is_empty() => body.truncate(body.len() - 1),
            2 if kind == 3 => {
                let at = self.rng.below(body.len());
                body[at] ^= 4;
            }
            _ => {}
        }
        body
    }

    pub fn draw_sealed(&mut self, server: &NetcodeServer, who: usize) -> Call {
        if self.rng.one_in(5) {
            return self.repeated(who);
        }
        let kind = self.rng.pick(&[1, 2, 3, 3, 4, 4, 4, 5, 5, 5, 5, 6]);
        let sequence = self.draw_sequence(server, who);
        let fewest = sequence_bytes_required(sequence);
        let count = match self.rng.below(3) {
            0 => fewest + self.rng.below(9 - fewest),
            _ => fewest,
        };
        let body = self.draw_body(server, who, kind);
        let key = self.key_of(server, who);
        let bytes = sealed(kind, count, sequence, &body, self.start.protocol, &key);
        self.damaged(server, who, bytes)
    }

    /// An earlier datagram of this client or of another.
    fn repeated(&mut self, who: usize) -> Call {
        let sender = match self.rng.below(4) {
            0 => self.rng.below(self.clients.len()),
            _ => who,
        };
        let from = self.clients[who].from;
        let sent = &self.clients[sender].sent;
        let bytes = match sent.len() {
            0 => vec![0x14; 26],
            len => sent[self.rng.below(len)].clone(),
        };
        Call::Datagram { from, bytes }
    }

    fn damaged(&mut self, server: &NetcodeServer, who: usize, mut bytes: Vec<u8>) -> Call {
        let mut from = self.clients[who].from;
        match self.rng.below(16) {
            0 | 1 => {
                let at = self.rng.below(bytes.len());
                bytes[at] ^= 1 << self.rng.below(8);
            }
            2 => bytes.truncate(self.rng.below(bytes.len() + 1)),
            3 => bytes.truncate(18 + self.rng.below(8)),
            4 => bytes.push(0),
            5 => from = stranger(self.rng.below(4)),
            6 => {
                let id = self.draw_id(server);
                from = server.client_addr(id).unwrap_or(from);
            }
            7 => {
                bytes[0] = bytes[0] & 15 | (9 + self.rng.below(7) as u8) << 4;
            }
            _ => {}
        }
        self.clients[who].remember(&bytes);
        Call::Datagram { from, bytes }
    }

    /// Bytes that nobody sealed.
    pub fn draw_junk(&mut self, who: usize) -> Call {
        let len = self.rng.mostly_below(40, 8, 1500);
        let mut bytes = self.rng.bytes(len);
        if let (Some(prefix), true) = (bytes.first_mut(), self.rng.one_in(2)) {
            *prefix &= 0x87;
        }
        let from = match self.rng.below(4) {
            0 => stranger(self.rng.below(4)),
            _ => self.clients[who].from,
        };
        Call::Datagram { from, bytes }
    }
}
