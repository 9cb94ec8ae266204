use std::collections::BTreeSet;
use std::{net::SocketAddr, time::Duration};

use super::super::{Connection, ConnectionState, NetcodeServer, ServerAuthentication};
use super::{connection, server};

/// What the clock and the queries look at in a connection.
#[derive(Debug, Clone, Copy)]
pub struct Record {
    pub client_id: u64,
    pub addr: SocketAddr,
    pub received: Duration,
    pub user_data: [u8; 256],
    pub expiry: u64,
}

impl Record {
    fn in_state(self, state: ConnectionState) -> Connection {
        Connection {
            state,
            user_data: self.user_data,
            last_packet_received_time: self.received,
            expire_timestamp: self.expiry,
            ..connection(self.client_id, self.addr, 0)
        }
    }
}

/// Of any number of slots, under any limit; of pending clients no two have the same address.
pub fn server_with(
    now: Duration,
    limit: usize,
    slots: impl Iterator<Item = Option<Record>>,
    pending: impl Iterator<Item = Record>,
) -> NetcodeServer {
    let mut server = server(now, ServerAuthentication::Unsecure);
    server.max_clients = limit;
    server.clients = slots
        .map(|slot| slot.map(|record| record.in_state(ConnectionState::Connected)))
        .collect();
    server.pending_clients = pending
        .map(|record| {
            let pending = record.in_state(ConnectionState::PendingResponse);
            (record.addr, pending)
        })
        .collect();
    server
}

/// Where the pending clients are.
pub fn pending(server: &NetcodeServer) -> BTreeSet<SocketAddr> {
    server.pending_clients.keys().copied().collect()
}

/// What no public function says of a server: how many slots and token entries it has, and how many of the
/// entries are used; what it took from its configuration, and the key that it drew; its two counters, the
/// global one first.
#[derive(Debug, Clone, Copy, PartialEq, Eq)]
pub struct Kept {
    pub slots: usize,
    pub entries: usize,
    pub used_entries: usize,
    pub protocol_id: u64,
    pub connect_key: [u8; 32],
    pub secure: bool,
    pub challenge_key: [u8; 32],
    pub counters: [u64; 2],
}

pub fn kept(server: &NetcodeServer) -> Kept {
    Kept {
        slots: server.clients.len(),
        entries: server.connect_token_entries.len(),
        used_entries: server.connect_token_entries.iter().flatten().count(),
        protocol_id: server.protocol_id,
        connect_key: server.connect_key,
        secure: server.secure,
        challenge_key: server.challenge_key,
        counters: [server.global_sequence, server.challenge_sequence],
    }
}
