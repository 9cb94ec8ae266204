//! Pumps: renetcode's own client, of either copy of the Rust.

use std::net::SocketAddr;
use std::time::Duration;

use super::sides::{server_addr, Came, Receive, PRIVATE_KEY, PROTOCOL};
use super::READING;

/// Long enough that nobody times out in a benchmark, and yet looked at on every turn.
pub const TIMEOUT_SECONDS: i32 = 1_000_000;
const REQUEST_BYTES: usize = 1078;
const TAG_BYTES: usize = 16;
const DATAGRAM_BYTES: usize = 48;

/// A sealed reading on its way.
#[derive(Clone)]
pub struct Datagram {
    pub addr: SocketAddr,
    pub client_id: u64,
    pub len: usize,
    pub bytes: [u8; DATAGRAM_BYTES],
}

pub trait Pump: Sized {
    /// Two with the same token, one for each server since a challenge is a server's own, and the key that the
    /// pump seals under.
    fn two(now: Duration, client_id: u64, expire_seconds: u64) -> ([Self; 2], [u8; 32]);
    /// The packet that is due.
    fn update(&mut self) -> Vec<u8>;
    fn process_packet(&mut self, packet: &mut [u8]);
    fn is_connected(&self) -> bool;
    fn reading(&mut self) -> &[u8];
}

macro_rules! pump {
    ($names:ident) => {
        impl Pump for $names::NetcodeClient {
            fn two(now: Duration, client_id: u64, expire_seconds: u64) -> ([Self; 2], [u8; 32]) {
                let connect_token = $names::ConnectToken::generate(
                    now,
                    PROTOCOL,
                    expire_seconds,
                    client_id,
                    TIMEOUT_SECONDS,
                    vec![server_addr()],
                    None,
                    &PRIVATE_KEY,
                )
                .expect("one address makes a token");
                let key = connect_token.client_to_server_key;
                let pump = || {
                    let connect_token = connect_token.clone();
                    let secure = $names::ClientAuthentication::Secure { connect_token };
                    Self::new(now, secure).expect("a token makes a client")
                };
                ([pump(), pump()], key)
            }

            fn update(&mut self) -> Vec<u8> {
                let (packet, _) = self.update(Duration::ZERO).expect("a packet is due");
                packet.to_vec()
            }

            fn process_packet(&mut self, packet: &mut [u8]) {
                let payload = self.process_packet(packet);
                assert!(payload.is_none(), "no payload in a handshake");
            }

            fn is_connected(&self) -> bool {
                self.is_connected()
            }

            fn reading(&mut self) -> &[u8] {
                let sealed = self.generate_payload_packet(&READING);
                let (_, packet) = sealed.expect("a connected pump seals a reading");
                packet
            }
        }
    };
}

pump!(oracle);
pump!(oracle_sodium);

/// The pump's request. Where the cipher is idle a token has no tag, by which a server knows it again, and gets
/// the client's number for one.
pub fn request(pump: &mut impl Pump, client_id: u64) -> Vec<u8> {
    let mut request = pump.update();
    assert_eq!(request.len(), REQUEST_BYTES);
    let tag = &mut request[REQUEST_BYTES - TAG_BYTES..];
    if tag == [0; TAG_BYTES] {
        tag[..8].copy_from_slice(&client_id.to_le_bytes());
    }
    request
}

/// The whole handshake.
pub fn connect(server: &mut impl Receive, pump: &mut impl Pump, addr: SocketAddr, client_id: u64) {
    let mut request = request(pump, client_id);
    match server.process_packet(addr, &mut request) {
        Came::Packet(challenge) => pump.process_packet(&mut challenge.to_vec()),
        other => panic!("a request came to {other:?}"),
    }
    match server.process_packet(addr, &mut pump.update()) {
        Came::Connected(keep_alive) => pump.process_packet(&mut keep_alive.to_vec()),
        other => panic!("a response came to {other:?}"),
    }
    assert!(pump.is_connected());
}

/// A reading of a pump, sealed.
pub fn reading(pump: &mut impl Pump, addr: SocketAddr, client_id: u64) -> Datagram {
    let sealed = pump.reading();
    let mut bytes = [0; DATAGRAM_BYTES];
    bytes[..sealed.len()].copy_from_slice(sealed);
    Datagram {
        addr,
        client_id,
        len: sealed.len(),
        bytes,
    }
}
