use std::net::SocketAddr;
use std::time::Duration;

use crate::NETCODE_KEY_BYTES;

/// Configuration to establish a secure or unsecure connection with the server.
pub enum ServerAuthentication {
    /// Clients need a connect token that was sealed under this key, which no client may know.
    Secure {
        /// The key that the tokens are sealed under.
        private_key: [u8; NETCODE_KEY_BYTES],
    },
    /// Clients make their tokens themselves, under a key of zeros: for tests and prototypes.
    Unsecure,
}

/// What a server is made from.
pub struct ServerConfig {
    /// The time at which the server's clock begins.
    pub current_time: Duration,
    /// Maximum number of clients that can be connected at a time, 1,024 at most. As many slots are made.
    pub max_clients: usize,
    /// Unique identifier for this particular application; clients of another one are refused.
    pub protocol_id: u64,
    /// Publicly available addresses to which clients will attempt to connect. Flow label and scope are left out.
    pub public_addresses: Vec<SocketAddr>,
    /// Authentication configuration for the server.
    pub authentication: ServerAuthentication,
}
