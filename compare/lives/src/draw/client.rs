//! A client: its address, its token, what it has sent and been sent.

use std::net::SocketAddr;

use oracle::lives::{self, Private};
use oracle::raw::Packet;

use super::{Mood, World};

/// A connect token of the original's own making.
#[derive(Debug, Clone)]
pub struct Token {
    pub private: Private,
    pub expiry: u64,
    pub xnonce: [u8; 24],
    pub data: [u8; 1024],
}

#[derive(Debug, Clone)]
pub struct Client {
    pub from: SocketAddr,
    pub token: Token,
    /// The next sequence it sends under.
    pub sequence: u64,
    /// Its last datagrams, to be sent again.
    pub sent: Vec<Vec<u8>>,
    /// Token sequence and token of the last challenge that it was sent.
    pub challenge: Option<(u64, [u8; 300])>,
}

impl Client {
    /// A packet from the server: a challenge is kept.
    pub fn take(&mut self, packet: &[u8], protocol: u64) {
        let mut packet = packet.to_vec();
        let key = self.token.private.server_to_client_key;
        let read = Packet::decode(&mut packet, protocol, Some(&key), None);
        if let Ok((
            _,
            Packet::Challenge {
                token_sequence,
                token_data,
            },
        )) = read
        {
            self.challenge = Some((token_sequence, token_data));
        }
    }

    pub fn remember(&mut self, datagram: &[u8]) {
        if self.sent.len() == 12 {
            self.sent.remove(0);
        }
        self.sent.push(datagram.to_vec());
    }
}

/// Few addresses, of both kinds, some of which differ in one part only.
fn address(number: usize) -> SocketAddr {
    let last = number as u8;
    let mut ip = [0; 16];
    match number % 4 {
        0 => ([10, 0, 0, last], 4000).into(),
        1 => ([10, 0, 0, last - 1], 4001).into(),
        2 => {
            (ip[0], ip[15]) = (0xfd, last);
            (ip, 4000).into()
        }
        // The bytes of an IPv4 address, as an IPv6 one.
        _ => {
            (ip[0], ip[3]) = (10, last - 3);
            (ip, 4000).into()
        }
    }
}

/// One that no client has.
pub fn stranger(number: usize) -> SocketAddr {
    address(40 + number)
}

impl World {
    pub fn draw_client(&mut self, number: usize, now: u64) -> Client {
        let from = address(number);
        let id = number as u64;
        Client {
            from,
            token: self.draw_token(id, now),
            sequence: u64::from(self.rng.one_in(2)),
            sent: Vec::new(),
            challenge: None,
        }
    }

    pub fn draw_token(&mut self, id: u64, now: u64) -> Token {
        let life = match self.mood {
            Mood::Small => 2 + self.rng.below(30) as u64,
            _ => self.rng.pick(&[1, 2, 3, 30, 300, 3000]),
        };
        let public = self.start.public.clone();
        let addresses = match self.rng.below(6) {
            0 => vec![([203, 0, 113, 9], 1).into(), public[public.len() - 1]],
            _ => vec![public[0]],
        };
        let private = Private {
            client_id: id,
            timeout_seconds: self.rng.pick(&[-1, 0, 1, 5, 15, i32::MAX, i32::MIN, 5]),
            addresses,
            client_to_server_key: self.rng.array(),
            server_to_client_key: self.rng.array(),
            user_data: self.rng.array(),
        };
        self.seal_token(private, now.saturating_add(life))
    }

    pub fn seal_token(&mut self, private: Private, expiry: u64) -> Token {
        let clear = private.clear();
        self.seal_clear(private, clear, expiry)
    }

    /// A token of these bytes, whatever they say.
    pub fn seal_clear(&mut self, private: Private, mut data: [u8; 1024], expiry: u64) -> Token {
        let key = match self.start.secure {
            true => self.start.connect_key,
            false => [0; 32],
        };
        let xnonce = self.rng.array();
        lives::seal(&mut data, self.start.protocol, expiry, &xnonce, &key);
        Token {
            private,
            expiry,
            xnonce,
            data,
        }
    }
}
