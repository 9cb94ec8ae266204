//! Requests: good ones, and each way in which one is refused or comes to nothing.

use oracle::calls::Fields;
use oracle::lives::NetcodeServer;

use super::client::Token;
use super::World;
use crate::call::Call;

const VERSION: usize = 1;
const PROTOCOL: usize = 14;
const EXPIRY: usize = 22;
const DATA: usize = 54;

impl World {
    fn request_of(&self, token: &Token) -> Vec<u8> {
        let fields = Fields {
            kind: 0,
            a: self.start.protocol,
            b: token.expiry,
            bytes: [&b"NETCODE 1.02\0"[..], &token.xnonce, &token.data].concat(),
        };
        super::packets::encoded(&fields, self.start.protocol, &[0; 32], 0)
    }

    /// With a fresh token where the old one is spent, and now and then anyway.
    pub fn good_request(&mut self, server: &NetcodeServer, who: usize) -> Call {
        let now = server.current_time().as_secs();
        let id = self.clients[who].token.private.client_id;
        if self.clients[who].token.expiry <= now || self.rng.one_in(6) {
            let token = self.draw_token(id, now);
            self.clients[who].token = token;
            self.clients[who].sequence = self.rng.below(2) as u64;
        }
        let token = self.clients[who].token.clone();
        Call::Datagram {
            from: self.clients[who].from,
            bytes: self.request_of(&token),
        }
    }

    /// With the token that the client has, whatever the clock shows.
    pub fn plain_request(&self, who: usize) -> Call {
        let client = &self.clients[who];
        Call::Datagram {
            from: client.from,
            bytes: self.request_of(&client.token),
        }
    }

    pub fn draw_request(&mut self, server: &NetcodeServer, who: usize) -> Call {
        let now = server.current_time().as_secs();
        let token = self.clients[who].token.clone();
        let mut from = self.clients[who].from;
        let mut bytes = self.request_of(&token);
        match self.rng.below(16) {
            0 => bytes[VERSION + self.rng.below(13)] ^= 1 << self.rng.below(8),
            1 => bytes[PROTOCOL + self.rng.below(8)] ^= 1 << self.rng.below(8),
            2 => bytes[EXPIRY..EXPIRY + 8].copy_from_slice(&now.to_le_bytes()),
            3 => bytes[EXPIRY] ^= 1,
            4 => bytes[DATA + self.rng.below(1024)] ^= 1 << self.rng.below(8),
            5 => bytes.truncate(self.rng.pick(&[1077, 1076, 18, 500])),
            6 => bytes.extend(vec![7; self.rng.pick(&[1, 16, 322])]),
            7 => bytes[0] |= (self.rng.below(16) as u8) << 4,
            8 | 9 => {
                // The token of one, from the address of another.
                let other = self.rng.below(self.clients.len());
                from = self.clients[other].from;
            }
            10 => bytes = self.foreign(&token, now),
            11 => bytes = self.unreadable(&token, now),
            12 => bytes = self.with_addresses(&token, now),
            13 => bytes = self.expiring(&token, now),
            14 => return self.borrowed_id(who, now),
            _ => {}
        }
        Call::Datagram { from, bytes }
    }

    /// For another server.
    fn foreign(&mut self, token: &Token, now: u64) -> Vec<u8> {
        let mut private = token.private.clone();
        let mut near = self.start.public[0];
        near.set_port(near.port() ^ 0x100);
        private.addresses = match self.rng.below(3) {
            0 => Vec::new(),
            1 => vec![near],
            _ => vec![([198, 51, 100, 7], 5000).into(); 32],
        };
        let token = self.seal_token(private, now.saturating_add(50));
        self.request_of(&token)
    }

    /// Sealed well, and of an address of kind 9, or with more addresses than are read.
    fn unreadable(&mut self, token: &Token, now: u64) -> Vec<u8> {
        let mut clear = token.private.clear();
        if self.rng.one_in(2) {
            clear[16] = 9;
        } else {
            clear[12..16].copy_from_slice(&33u32.to_le_bytes());
        }
        let token = self.seal_clear(token.private.clone(), clear, now.saturating_add(50));
        self.request_of(&token)
    }

    /// Ours as the last of many.
    fn with_addresses(&mut self, token: &Token, now: u64) -> Vec<u8> {
        let mut private = token.private.clone();
        let count = self.rng.pick(&[1, 2, 31]);
        private.addresses = vec![([198, 51, 100, 7], 5000).into(); count];
        private
            .addresses
            .push(*self.start.public.last().expect("one address"));
        let token = self.seal_token(private, now.saturating_add(50));
        self.request_of(&token)
    }

    /// Expired now, or in a second.
    fn expiring(&mut self, token: &Token, now: u64) -> Vec<u8> {
        let expiry = now.saturating_add(self.rng.below(2) as u64);
        let token = self.seal_token(token.private.clone(), expiry);
        self.request_of(&token)
    }

    /// A client that asks again with the id of another.
    fn borrowed_id(&mut self, who: usize, now: u64) -> Call {
        let other = self.rng.below(self.clients.len());
        let id = self.clients[other].token.private.client_id;
        let token = self.draw_token(id, now);
        let bytes = self.request_of(&token);
        self.clients[who].token = token;
        let from = self.clients[who].from;
        Call::Datagram { from, bytes }
    }
}
