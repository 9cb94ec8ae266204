//! What is done to both servers, in plain values, so that a life can be run again with some of it left out.

use std::net::SocketAddr;

use crate::poke::Poke;

#[derive(Debug, Clone, PartialEq, Eq)]
pub enum Call {
    Update {
        secs: u64,
        nanos: u64,
    },
    SetMaxClients(u64),
    Datagram {
        from: SocketAddr,
        bytes: Vec<u8>,
    },
    Payload {
        id: u64,
        bytes: Vec<u8>,
    },
    UpdateClient {
        id: u64,
    },
    Disconnect {
        id: u64,
    },
    Query {
        id: u64,
    },
    Poke(Poke),
    /// Ours alone: every refusal that the Rust has no case for, with no ask open.
    Misuse,
}

/// A call and its host: which of the asks the host says no to, whatever the cipher says; whether the host misuses the library at each
/// ask before it answers; and whether, in a call for a client, it lends an output just as long as the packet.
#[derive(Debug, Clone, PartialEq, Eq)]
pub struct Turn {
    pub call: Call,
    pub no: Option<usize>,
    pub misuse: bool,
    pub tight: bool,
}

/// The server that a life begins with.
#[derive(Debug, Clone, PartialEq, Eq)]
pub struct Start {
    pub secs: u64,
    pub nanos: u32,
    pub max_clients: usize,
    pub protocol: u64,
    pub secure: bool,
    pub connect_key: [u8; 32],
    /// Where the Rust's generator starts, which draws the challenge key.
    pub seed: u64,
    pub public: Vec<SocketAddr>,
    pub pending: usize,
    pub out: usize,
}

#[derive(Debug, Clone, PartialEq, Eq)]
pub struct Life {
    pub start: Start,
    pub turns: Vec<Turn>,
}
