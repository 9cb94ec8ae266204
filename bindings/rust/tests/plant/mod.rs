//! A plant's server code, written once and compiled against renetcode and against this crate, and both servers driven side by side: what
//! a call comes to, what it leaves in the caller's buffer and all that the queries say must be equal after every call.

#![allow(dead_code, unused_imports, reason = "each test file uses its share")]

mod pump;

use std::net::SocketAddr;
use std::time::Duration;

pub use pump::{token, Pump, HOST, KEY, PROTOCOL};

/// The one line that changes is the first.
pub mod ours {
    use netcode as library;
    include!("code.rs");
}

pub mod theirs {
    use oracle as library;
    include!("code.rs");
}

/// What a call came to, with its bytes copied.
#[derive(Debug, Clone, PartialEq, Eq)]
pub enum Event {
    Nothing,
    Send {
        to: SocketAddr,
        packet: Vec<u8>,
    },
    /// Where in the caller's buffer it stands, too.
    Reading {
        pump: u64,
        at: usize,
        bytes: Vec<u8>,
    },
    Came {
        pump: u64,
        at: SocketAddr,
        user_data: Vec<u8>,
        packet: Vec<u8>,
    },
    Left {
        pump: u64,
        at: SocketAddr,
        packet: Option<Vec<u8>>,
    },
}

impl Event {
    /// The packet that is to be sent.
    pub fn packet(self) -> Vec<u8> {
        match self {
            Self::Send { packet, .. } | Self::Came { packet, .. } => packet,
            Self::Left { packet, .. } => packet.expect("a packet to send"),
            other => panic!("no packet to send: {other:?}"),
        }
    }
}

/// All that the queries say of a server.
#[derive(Debug, Clone, PartialEq, Eq)]
pub struct Standing {
    pub clock: Duration,
    pub limit: usize,
    pub addresses: Vec<SocketAddr>,
    pub connected: usize,
    pub ids: Vec<u64>,
    pub listed: Vec<u64>,
    pub slots: Vec<usize>,
    pub clients: Vec<Client>,
}

/// All that the queries say of an id.
#[derive(Debug, Clone, PartialEq, Eq)]
pub struct Client {
    pub connected: bool,
    pub addr: Option<SocketAddr>,
    pub since: Option<Duration>,
    pub user_data: Option<[u8; 256]>,
}

/// What both servers are made from.
#[derive(Debug, Clone)]
pub struct Setting {
    pub current_time: Duration,
    pub max_clients: usize,
    pub public_addresses: Vec<SocketAddr>,
    /// None for an unsecure server.
    pub key: Option<[u8; 32]>,
}

impl Setting {
    /// A secure server at one address, with so many slots.
    pub fn of(max_clients: usize) -> Self {
        Self {
            current_time: Duration::from_secs(10),
            max_clients,
            public_addresses: vec![HOST.parse().unwrap()],
            key: Some(KEY),
        }
    }
}

/// What the plant does with a server.
pub trait Plant {
    fn arrived(&mut self, from: SocketAddr, buffer: &mut [u8]) -> Event;
    fn send(&mut self, pump: u64, bytes: &[u8]) -> Result<(SocketAddr, Vec<u8>), String>;
    fn step(&mut self, by: Duration);
    fn turn(&mut self, pump: u64) -> Event;
    fn send_away(&mut self, pump: u64) -> Event;
    fn limit(&mut self, clients: usize);
    fn standing(&self, asked: &[u64]) -> Standing;
}

pub struct Both {
    pub ours: netcode::NetcodeServer,
    pub theirs: oracle::NetcodeServer,
}

/// The ids that are asked for after every call.
const ASKED: [u64; 6] = [0, 1, 2, 3, 4, u64::MAX];

impl Both {
    /// Ours gets the challenge key that the other drew, so that the bytes of both can be compared.
    pub fn new(setting: &Setting) -> Self {
        let theirs = oracle::NetcodeServer::new(theirs::config(setting));
        let key = oracle::servers::kept(&theirs).challenge_key;
        let cipher = netcode::Sodium::new();
        let ours = netcode::NetcodeServer::with_cipher(ours::config(setting), key, cipher);
        let both = Self {
            ours: ours.expect("a server"),
            theirs,
        };
        both.compare();
        both
    }

    /// The buffer is left as both leave it.
    pub fn arrived(&mut self, from: SocketAddr, buffer: &mut [u8]) -> Event {
        let mut copy = buffer.to_vec();
        let event = self.ours.arrived(from, buffer);
        assert_eq!(event, self.theirs.arrived(from, &mut copy));
        assert_eq!(buffer, copy, "the buffers after {event:?}");
        self.compare();
        event
    }

    pub fn send(&mut self, pump: u64, bytes: &[u8]) -> Result<(SocketAddr, Vec<u8>), String> {
        let sent = self.ours.send(pump, bytes);
        assert_eq!(sent, self.theirs.send(pump, bytes));
        self.compare();
        sent
    }

    pub fn step(&mut self, by: Duration) {
        self.ours.step(by);
        self.theirs.step(by);
        self.compare();
    }

    pub fn turn(&mut self, pump: u64) -> Event {
        let event = self.ours.turn(pump);
        assert_eq!(event, self.theirs.turn(pump));
        self.compare();
        event
    }

    pub fn send_away(&mut self, pump: u64) -> Event {
        let event = self.ours.send_away(pump);
        assert_eq!(event, self.theirs.send_away(pump));
        self.compare();
        event
    }

    pub fn limit(&mut self, clients: usize) {
        self.ours.limit(clients);
        self.theirs.limit(clients);
        self.compare();
    }

    /// The number of our last refusal, 0 for none.
    pub fn number(&self) -> u8 {
        self.ours.refusal().map_or(0, netcode::Refusal::number)
    }

    pub fn standing(&self) -> Standing {
        self.ours.standing(&ASKED)
    }

    fn compare(&self) {
        assert_eq!(self.ours.standing(&ASKED), self.theirs.standing(&ASKED));
    }
}
