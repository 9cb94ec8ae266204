//! A case: one call with all its inputs, the same for both sides.

use std::fmt;

use crate::servers::Server;
use crate::tables::{Entries, Hosts, Moment, Slots};
use crate::text::{hex, window_text};

pub use crate::call::Call;
pub use oracle::calls::{Fields, Window};

pub type Key = [u8; 32];

/// The sequences from here on are outside the domain on a windowed packet.
pub const HIGH: u64 = u64::MAX - 255;

/// Stands in a window's place that has received nothing.
pub const EMPTY: u64 = u64::MAX;

#[derive(Debug, Clone, PartialEq, Eq)]
pub enum Case {
    Prefix {
        value: u8,
        sequence: u64,
    },
    Unprefix {
        byte: u8,
    },
    Sequence {
        source: Vec<u8>,
        at: usize,
        len: usize,
    },
    Additional {
        prefix: u8,
        protocol: u64,
    },
    Private {
        protocol: u64,
        expiry: u64,
    },
    Window {
        window: Box<Window>,
        sequence: u64,
    },
    Encode(Encode),
    Decode(Decode),
    Challenge(Box<Challenge>),
    Proof(Proof),
    Entries(Entries),
    Slots(Slots),
    Hosts(Hosts),
    Moment(Moment),
    Server(Server),
}

#[derive(Debug, Clone, PartialEq, Eq)]
pub struct Encode {
    pub packet: Fields,
    pub protocol: u64,
    pub key: Option<Key>,
    pub sequence: u64,
    /// The buffer as it stands before the call.
    pub out: Vec<u8>,
    /// The cipher refuses to seal.
    pub refused: bool,
}

#[derive(Debug, Clone, PartialEq, Eq)]
pub struct Decode {
    pub datagram: Vec<u8>,
    pub protocol: u64,
    pub key: Option<Key>,
    pub window: Option<Box<Window>>,
}

#[derive(Debug, Clone, PartialEq, Eq)]
pub struct Challenge {
    pub client: u64,
    pub user: [u8; 256],
    pub sequence: u64,
    pub key: Key,
    /// Ours writes into a buffer from `at` on, which has room for 300 bytes there.
    pub out: Vec<u8>,
    pub at: usize,
    pub refused: bool,
}

#[derive(Debug, Clone, PartialEq, Eq)]
pub struct Proof {
    /// The token's 300 bytes stand from `at` on.
    pub token: Vec<u8>,
    pub at: usize,
    pub sequence: u64,
    pub key: Key,
}

impl Case {
    pub fn call(&self) -> Call {
        match self {
            Case::Prefix { .. } => Call::Prefix,
            Case::Unprefix { .. } => Call::Unprefix,
            Case::Sequence { .. } => Call::Sequence,
            Case::Additional { .. } => Call::Additional,
            Case::Private { .. } => Call::Private,
            Case::Window { .. } => Call::Window,
            Case::Encode(_) => Call::Encode,
            Case::Decode(_) => Call::Decode,
            Case::Challenge(_) => Call::Challenge,
            Case::Proof(_) => Call::Proof,
            Case::Entries(_) => Call::Entry,
            Case::Slots(case) => case.call(),
            Case::Hosts(_) => Call::Hosts,
            Case::Moment(moment) => moment.call(),
            Case::Server(case) => case.call(),
        }
    }
}

impl Decode {
    /// The low and the high four bits of the prefix byte.
    pub fn prefix(&self) -> Option<(u8, usize)> {
        let byte = *self.datagram.first()?;
        Some((byte & 15, usize::from(byte >> 4)))
    }
}

fn key_text(key: &Option<Key>) -> String {
    key.map_or("none".into(), |key| hex(&key))
}

/// The whole input, so that it can be tried again by hand.
impl fmt::Display for Case {
    fn fmt(&self, f: &mut fmt::Formatter<'_>) -> fmt::Result {
        write!(f, "{}", self.call().name())?;
        match self {
            Case::Prefix { value, sequence } => write!(f, " value {value:x} sequence {sequence:x}"),
            Case::Unprefix { byte } => write!(f, " byte {byte:02x}"),
            Case::Sequence { source, at, len } => {
                write!(f, " source {} at {at} len {len}", hex(source))
            }
            Case::Additional { prefix, protocol } => {
                write!(f, " prefix {prefix:02x} protocol {protocol:x}")
            }
            Case::Private { protocol, expiry } => {
                write!(f, " protocol {protocol:x} expiry {expiry:x}")
            }
            Case::Window { window, sequence } => {
                write!(
                    f,
                    " window {} sequence {sequence:x}",
                    window_text(Some(window))
                )
            }
            Case::Encode(case) => case.fmt(f),
            Case::Decode(case) => case.fmt(f),
            Case::Challenge(case) => case.fmt(f),
            Case::Proof(case) => case.fmt(f),
            Case::Entries(case) => case.fmt(f),
            Case::Slots(case) => case.fmt(f),
            Case::Hosts(case) => case.fmt(f),
            Case::Moment(moment) => moment.fmt(f),
            Case::Server(case) => case.fmt(f),
        }
    }
}

impl fmt::Display for Encode {
    fn fmt(&self, f: &mut fmt::Formatter<'_>) -> fmt::Result {
        let Fields { kind, a, b, bytes } = &self.packet;
        write!(f, " type {kind} a {a:x} b {b:x} bytes {}", hex(bytes))?;
        write!(
            f,
            " protocol {:x} key {}",
            self.protocol,
            key_text(&self.key)
        )?;
        write!(f, " sequence {:x} buffer {}", self.sequence, hex(&self.out))?;
        write!(f, " seal refused {}", self.refused)
    }
}

impl fmt::Display for Decode {
    fn fmt(&self, f: &mut fmt::Formatter<'_>) -> fmt::Result {
        write!(f, " datagram {}", hex(&self.datagram))?;
        write!(
            f,
            " protocol {:x} key {}",
            self.protocol,
            key_text(&self.key)
        )?;
        write!(f, " window {}", window_text(self.window.as_deref()))
    }
}

impl fmt::Display for Challenge {
    fn fmt(&self, f: &mut fmt::Formatter<'_>) -> fmt::Result {
        write!(f, " client {:x} user {}", self.client, hex(&self.user))?;
        write!(f, " sequence {:x} key {}", self.sequence, hex(&self.key))?;
        write!(f, " buffer {} at {}", hex(&self.out), self.at)?;
        write!(f, " seal refused {}", self.refused)
    }
}

impl fmt::Display for Proof {
    fn fmt(&self, f: &mut fmt::Formatter<'_>) -> fmt::Result {
        write!(f, " token {} at {}", hex(&self.token), self.at)?;
        write!(f, " sequence {:x} key {}", self.sequence, hex(&self.key))
    }
}
