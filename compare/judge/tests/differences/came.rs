//! What a call of a whole server came to, in the same words for both sides.

use std::net::SocketAddr;

use oracle::calls::Answer as Caught;
use oracle::{NetcodeError, ServerResult};
use ours::servers::Answer;
use ours::tables::Address;

#[derive(Debug, Clone, PartialEq, Eq)]
pub enum Came {
    Nothing,
    /// Ours alone has numbers.
    Refused(u64),
    /// The Rust's alone, from `generate_payload_packet`.
    Failed,
    Panicked,
    ToSend(SocketAddr, Vec<u8>),
    Payload(u64, Vec<u8>),
    Connected(u64, SocketAddr, Vec<u8>),
    Disconnected(u64, SocketAddr, Option<Vec<u8>>),
    /// Without a packet, and why: ours alone.
    Ended(u64, SocketAddr, u64),
}

impl From<ServerResult<'_, '_>> for Came {
    fn from(result: ServerResult) -> Self {
        match result {
            ServerResult::None => Came::Nothing,
            ServerResult::PacketToSend { addr, payload } => Came::ToSend(addr, payload.to_vec()),
            ServerResult::Payload { client_id, payload } => {
                Came::Payload(client_id, payload.to_vec())
            }
            ServerResult::ClientConnected {
                client_id,
                addr,
                payload,
                ..
            } => Came::Connected(client_id, addr, payload.to_vec()),
            ServerResult::ClientDisconnected {
                client_id,
                addr,
                payload,
            } => Came::Disconnected(client_id, addr, payload.map(|payload| payload.to_vec())),
        }
    }
}

impl From<Result<(SocketAddr, &mut [u8]), NetcodeError>> for Came {
    fn from(result: Result<(SocketAddr, &mut [u8]), NetcodeError>) -> Self {
        match result {
            Ok((addr, packet)) => Came::ToSend(addr, packet.to_vec()),
            Err(_) => Came::Failed,
        }
    }
}

pub fn theirs(caught: Caught<Came>) -> Came {
    match caught {
        Caught::Is(came) => came,
        Caught::Panicked { .. } => Came::Panicked,
    }
}

/// Ours, with the output and the datagram in which the answer names a part.
pub fn mine(answer: &Answer, out: &[u8], datagram: &[u8]) -> Came {
    let (number, id, to) = (answer[1], answer[2], socket(&answer[4..7]));
    let (start, end) = (answer[7] as usize, answer[8] as usize);
    let packet = || out[..end].to_vec();
    match answer[0] {
        0 => Came::Refused(number),
        1 => Came::Nothing,
        3 => Came::ToSend(to, packet()),
        4 => Came::Payload(id, datagram[start..end].to_vec()),
        5 => Came::Connected(id, to, packet()),
        6 if number != 0 => Came::Ended(id, to, number),
        6 => Came::Disconnected(id, to, (end > 0).then(packet)),
        other => panic!("no answer is of case {other}"),
    }
}

/// An address without its flow label and scope, for which ours has no place.
pub fn address(socket: SocketAddr) -> Address {
    let mut bytes = [0; 16];
    let kind = match socket {
        SocketAddr::V4(four) => {
            bytes[..4].copy_from_slice(&four.ip().octets());
            4
        }
        SocketAddr::V6(six) => {
            bytes = six.ip().octets();
            6
        }
    };
    let port = socket.port();
    Address { kind, bytes, port }
}

pub fn words_of(socket: SocketAddr) -> [u64; 3] {
    let Address { kind, bytes, port } = address(socket);
    let word = |at: usize| u64::from_le_bytes(bytes[at..at + 8].try_into().expect("eight bytes"));
    [u64::from(kind) << 16 | u64::from(port), word(0), word(8)]
}

/// Of three words; those of no address are taken for one of the IPv4's.
pub fn socket(words: &[u64]) -> SocketAddr {
    let port = words[0] as u16;
    let mut bytes = [0; 16];
    bytes[..8].copy_from_slice(&words[1].to_le_bytes());
    bytes[8..].copy_from_slice(&words[2].to_le_bytes());
    match words[0] >> 16 {
        6 => (bytes, port).into(),
        _ => ([bytes[0], bytes[1], bytes[2], bytes[3]], port).into(),
    }
}
