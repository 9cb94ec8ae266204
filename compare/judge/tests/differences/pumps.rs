//! What pumps send, made with the Rust's own code.

use std::net::{Ipv4Addr, SocketAddr, SocketAddrV4};

use oracle::calls::{self as rust, Fields};
use oracle::lives::{self, Private};

use crate::common::{fields, is};

pub const PROTOCOL: u64 = 7;
pub const CONNECT_KEY: [u8; 32] = [4; 32];
const TO_SERVER: [u8; 32] = [5; 32];
pub const TO_CLIENT: [u8; 32] = [6; 32];

pub const PUBLIC: SocketAddr = local(40000);
pub const HERE: SocketAddr = local(1);
pub const THERE: SocketAddr = local(2);

const fn local(port: u16) -> SocketAddr {
    SocketAddr::V4(SocketAddrV4::new(Ipv4Addr::LOCALHOST, port))
}

/// A token for this id, whose user data tells it.
pub fn token(client_id: u64) -> Private {
    Private {
        client_id,
        timeout_seconds: 1,
        addresses: vec![PUBLIC],
        client_to_server_key: TO_SERVER,
        server_to_client_key: TO_CLIENT,
        user_data: [client_id as u8; 256],
    }
}

pub fn request(token: &Private, expiry: u64) -> Vec<u8> {
    request_of(token.clear(), expiry)
}

/// A request with these private bytes.
pub fn request_of(private: [u8; 1024], expiry: u64) -> Vec<u8> {
    request_under(private, expiry, &CONNECT_KEY)
}

/// The same for a server with this key.
pub fn request_under(mut private: [u8; 1024], expiry: u64, key: &[u8; 32]) -> Vec<u8> {
    let nonce = [9; 24];
    lives::seal(&mut private, PROTOCOL, expiry, &nonce, key);
    let bytes = [&b"NETCODE 1.02\0"[..], &nonce, &private].concat();
    encoded(&fields(0, PROTOCOL, expiry, &bytes), 0, &TO_SERVER)
}

/// A pump's packet under a good tag.
pub fn packet(kind: u8, sequence: u64, body: &[u8]) -> Vec<u8> {
    encoded(&fields(kind, 0, 0, body), sequence, &TO_SERVER)
}

fn encoded(packet: &Fields, sequence: u64, key: &[u8; 32]) -> Vec<u8> {
    let out = vec![0; 1400];
    let encoded = is(rust::encode(out, packet, PROTOCOL, Some(key), sequence));
    let len = encoded.result.expect("room for a packet");
    encoded.out[..len].to_vec()
}

/// What the server sent, opened.
pub fn opened(packet: &[u8]) -> (u64, Fields) {
    let decoded = is(rust::decode(
        packet.to_vec(),
        PROTOCOL,
        Some(&TO_CLIENT),
        None,
    ));
    decoded.result.expect("a packet of the server's")
}

/// The answer to a challenge.
pub fn response(challenge: &[u8]) -> Vec<u8> {
    let (_, Fields { kind, a, bytes, .. }) = opened(challenge);
    assert_eq!(kind, 2, "no challenge");
    encoded(&fields(3, a, 0, &bytes), 0, &TO_SERVER)
}
