//! What the server keeps to itself: its token entries, its slots, its clock, its list of hosts, its pending
//! clients. All that is asked of it is asked of its own functions.

use std::{net::SocketAddr, time::Duration};

use super::{
    Connection, ConnectionState, NetcodeServer, ReplayProtection, ServerAuthentication,
    ServerConfig,
};

mod clocks;
mod entries;
mod hosts;
pub mod lives;
mod servers;
mod slots;

pub use clocks::{is_before, one_client, server_at};
pub use entries::{Entries, Entry};
pub use hosts::is_in_host_list;
pub use servers::{kept, pending, server_with, Kept, Record};
pub use slots::{is_pending, Client, Slots};

const PROTOCOL: u64 = 7;
const KEY: [u8; 32] = [7; 32];

/// One slot, empty, like all else.
fn server(current_time: Duration, authentication: ServerAuthentication) -> NetcodeServer {
    NetcodeServer::new(ServerConfig {
        current_time,
        max_clients: 1,
        protocol_id: PROTOCOL,
        public_addresses: Vec::new(),
        authentication,
    })
}

/// A connected client; its sequence is free to tell which one it is.
fn connection(client_id: u64, addr: SocketAddr, sequence: u64) -> Connection {
    Connection {
        confirmed: false,
        client_id,
        state: ConnectionState::Connected,
        send_key: KEY,
        receive_key: KEY,
        user_data: [0; 256],
        addr,
        last_packet_received_time: Duration::ZERO,
        last_packet_send_time: Duration::ZERO,
        timeout_seconds: 0,
        sequence,
        expire_timestamp: 0,
        replay_protection: ReplayProtection::new(),
    }
}
