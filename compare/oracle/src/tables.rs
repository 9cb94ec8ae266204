//! The plain interface to what a server does with its tables and its clock.

use std::net::SocketAddr;
use std::time::Duration;

use crate::calls::{caught, Answer};
use crate::server::peek;
use crate::ServerResult;

pub use peek::{is_before, is_in_host_list, is_pending, Client, Entries, Entry, Slots};

/// What `update_client` did with the one client.
#[derive(Debug, Clone, Copy, PartialEq, Eq)]
pub enum Updated {
    Disconnected,
    KeptAlive,
    Nothing,
    /// An answer that its text rules out.
    Other,
}

/// `update`, and the clock after it, moved or not.
pub fn update(clock: Duration, step: Duration) -> (Answer<()>, Duration) {
    let mut server = peek::server_at(clock);
    let answer = caught(|| server.update(step));
    (answer, server.current_time())
}

pub fn update_client(
    now: Duration,
    received: Duration,
    sent: Duration,
    timeout: i32,
) -> Answer<Updated> {
    let mut server = peek::one_client(now, received, sent, timeout);
    caught(|| match server.update_client(0) {
        ServerResult::ClientDisconnected { .. } => Updated::Disconnected,
        ServerResult::PacketToSend { .. } => Updated::KeptAlive,
        ServerResult::None => Updated::Nothing,
        _ => Updated::Other,
    })
}

/// None is for a client that is not connected, and this one is.
pub fn time_since_last_received_packet(
    now: Duration,
    received: Duration,
) -> Answer<Option<Duration>> {
    let server = peek::one_client(now, received, Duration::ZERO, 0);
    caught(|| server.time_since_last_received_packet(0))
}

/// Four of the 16 bytes count for kind 4, whose rest is zero; none for what is no address.
pub fn address(kind: u8, bytes: &[u8; 16], port: u16) -> Option<SocketAddr> {
    match kind {
        4 if bytes[4..] == [0; 12] => {
            let four: [u8; 4] = bytes[..4].try_into().expect("four bytes");
            Some((four, port).into())
        }
        6 => Some((*bytes, port).into()),
        _ => None,
    }
}
