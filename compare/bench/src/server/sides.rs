//! The servers under one trait, so that each benchmark is written once.

use std::net::SocketAddr;
use std::time::Duration;

use netcode::Cipher;

use super::ciphers::{Idle, Sodium};
use super::pumps::Pump;

pub const PROTOCOL: u64 = 7;
pub const PRIVATE_KEY: [u8; 32] = [9; 32];
pub const CHALLENGE_KEY: [u8; 32] = [8; 32];
/// What the servers' clocks show at first.
pub const START: Duration = Duration::from_secs(1000);

pub fn server_addr() -> SocketAddr {
    ([127, 0, 0, 1], 40000).into()
}

/// What a benchmark looks at in a server's result.
#[derive(Debug)]
pub enum Came<'a> {
    Nothing,
    Payload { client_id: u64, payload: &'a [u8] },
    Packet(&'a [u8]),
    Connected(&'a [u8]),
    Disconnected,
}

pub trait Receive {
    fn process_packet<'a>(&'a mut self, addr: SocketAddr, datagram: &'a mut [u8]) -> Came<'a>;
}

pub trait Server: Receive {
    fn new(max_clients: usize) -> Self;
    /// The packet, none for a refusal.
    fn generate_payload_packet(&mut self, client_id: u64, payload: &[u8]) -> Option<&[u8]>;
    fn update(&mut self, duration: Duration);
    fn update_client(&mut self, client_id: u64) -> Came<'_>;
    fn connected_clients(&self) -> usize;
    fn clients_id(&self) -> Vec<u64>;
    fn time_since_last_received_packet(&self, client_id: u64) -> Option<Duration>;
}

/// The Rust over a cipher, ours over the same, and pumps for both.
pub trait Pair {
    const CIPHER: &'static str;
    type Rust: Server;
    type Host: Cipher + Default;
    type Pump: Pump;
}

pub struct WithIdle;
pub struct WithSodium;
/// Ours with the cipher that the drop-in crate brings.
pub struct WithItsOwn;

impl Pair for WithIdle {
    const CIPHER: &'static str = "idle cipher";
    type Rust = oracle::NetcodeServer;
    type Host = Idle;
    type Pump = oracle::NetcodeClient;
}

impl Pair for WithSodium {
    const CIPHER: &'static str = "libsodium";
    type Rust = oracle_sodium::NetcodeServer;
    type Host = Sodium;
    type Pump = oracle_sodium::NetcodeClient;
}

impl Pair for WithItsOwn {
    const CIPHER: &'static str = "its own libsodium";
    type Rust = oracle_sodium::NetcodeServer;
    type Host = netcode::Sodium;
    type Pump = oracle_sodium::NetcodeClient;
}

/// The same lines for each crate, whose names are the same; a method of the server's own goes before the
/// trait's of the same name.
macro_rules! side {
    ($names:ident, [$($generics:tt)*], $server:ty, $new:expr) => {
        impl<$($generics)*> Receive for $server {
            fn process_packet<'a>(&'a mut self, addr: SocketAddr, datagram: &'a mut [u8]) -> Came<'a> {
                self.process_packet(addr, datagram).into()
            }
        }

        impl<$($generics)*> Server for $server {
            fn new(max_clients: usize) -> Self {
                $new($names::ServerConfig {
                    current_time: START,
                    max_clients,
                    protocol_id: PROTOCOL,
                    public_addresses: vec![server_addr()],
                    authentication: $names::ServerAuthentication::Secure {
                        private_key: PRIVATE_KEY,
                    },
                })
            }

            fn generate_payload_packet(&mut self, client_id: u64, payload: &[u8]) -> Option<&[u8]> {
                let (_, packet) = self.generate_payload_packet(client_id, payload).ok()?;
                Some(packet)
            }

            fn update(&mut self, duration: Duration) {
                self.update(duration);
            }

            fn update_client(&mut self, client_id: u64) -> Came<'_> {
                self.update_client(client_id).into()
            }

            fn connected_clients(&self) -> usize {
                self.connected_clients()
            }

            fn clients_id(&self) -> Vec<u64> {
                self.clients_id()
            }

            fn time_since_last_received_packet(&self, client_id: u64) -> Option<Duration> {
                self.time_since_last_received_packet(client_id)
            }
        }

        impl<'a> From<$names::ServerResult<'a, 'a>> for Came<'a> {
            fn from(result: $names::ServerResult<'a, 'a>) -> Self {
                use $names::ServerResult;
                match result {
                    ServerResult::None => Came::Nothing,
                    ServerResult::Payload { client_id, payload } => Came::Payload { client_id, payload },
                    ServerResult::PacketToSend { payload, .. } => Came::Packet(payload),
                    ServerResult::ClientConnected { payload, .. } => Came::Connected(payload),
                    ServerResult::ClientDisconnected { .. } => Came::Disconnected,
                }
            }
        }
    };
}

side!(oracle, [], oracle::NetcodeServer, Self::new);
side!(oracle_sodium, [], oracle_sodium::NetcodeServer, Self::new);
side!(netcode, [C: Cipher + Default], netcode::NetcodeServer<C>, |config| {
    Self::with_cipher(config, CHALLENGE_KEY, C::default()).expect("a limit that is allowed")
});
