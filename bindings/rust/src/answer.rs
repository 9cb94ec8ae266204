use std::net::SocketAddr;

use crate::address;

/// What a call came to, as `netcode.h` lays it out.
#[derive(Debug, Clone, Copy, PartialEq, Eq)]
pub enum Answer {
    /// Refused, or over with nothing to be done.
    Nothing,
    PacketToSend {
        addr: SocketAddr,
        end: usize,
    },
    Payload {
        client_id: u64,
        start: usize,
        end: usize,
    },
    Connected {
        client_id: u64,
        addr: SocketAddr,
        end: usize,
    },
    /// Without a packet where `end` is 0.
    Disconnected {
        client_id: u64,
        addr: SocketAddr,
        end: usize,
    },
}

/// What the library asks of its host.
#[derive(Debug, Clone, Copy, PartialEq, Eq)]
pub enum Work {
    /// Open a packet.
    Packet,
    /// Open the challenge in a response, which alone has no additional data.
    Challenge,
    /// Open a private token, which alone has a nonce of 24 bytes, and read it.
    Token,
    /// Seal a part of the output.
    Seal,
}

const ASK: u64 = 2;

impl Answer {
    pub fn in_words(words: &[u64; 14]) -> Self {
        let [case, _, client_id, _, a, b, c, start, end, ..] = *words;
        let addr = || address::from_words([a, b, c]);
        let (start, end) = (start as usize, end as usize);
        match case {
            3 => Self::PacketToSend { addr: addr(), end },
            4 => Self::Payload {
                client_id,
                start,
                end,
            },
            5 => Self::Connected {
                client_id,
                addr: addr(),
                end,
            },
            6 => Self::Disconnected {
                client_id,
                addr: addr(),
                end,
            },
            _ => Self::Nothing,
        }
    }
}

impl Work {
    pub fn in_words(words: &[u64; 14]) -> Option<Self> {
        let [case, .., work, nonce_size, additional_size, _, _] = *words;
        if case != ASK {
            return None;
        }
        Some(match (work, nonce_size, additional_size) {
            (1, _, _) => Self::Seal,
            (_, 24, _) => Self::Token,
            (_, _, 0) => Self::Challenge,
            _ => Self::Packet,
        })
    }
}
