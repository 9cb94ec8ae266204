//! The private part of a connect token, sealed and read with the original's own code.

use std::io::Cursor;
use std::net::SocketAddr;

use super::super::{encrypt_in_place_xnonce, get_additional_data, PrivateConnectToken};

/// What a private token says; it has 32 addresses at most.
#[derive(Debug, Clone, PartialEq, Eq)]
pub struct Private {
    pub client_id: u64,
    pub timeout_seconds: i32,
    pub addresses: Vec<SocketAddr>,
    pub client_to_server_key: [u8; 32],
    pub server_to_client_key: [u8; 32],
    pub user_data: [u8; 256],
}

impl Private {
    /// The 1,024 bytes before they are sealed; the last 16 are the tag's.
    pub fn clear(&self) -> [u8; 1024] {
        let mut server_addresses = [None; 32];
        for (place, address) in server_addresses.iter_mut().zip(&self.addresses) {
            *place = Some(*address);
        }
        let token = PrivateConnectToken {
            client_id: self.client_id,
            timeout_seconds: self.timeout_seconds,
            server_addresses,
            client_to_server_key: self.client_to_server_key,
            server_to_client_key: self.server_to_client_key,
            user_data: self.user_data,
        };
        let mut clear = [0; 1024];
        let written = token.write(&mut Cursor::new(&mut clear[..]));
        written.expect("room for a token");
        clear
    }

    /// What opened bytes say; none where they cannot be read.
    pub fn read(clear: &[u8]) -> Option<Self> {
        let token = PrivateConnectToken::read(&mut Cursor::new(clear)).ok()?;
        Some(Self {
            client_id: token.client_id,
            timeout_seconds: token.timeout_seconds,
            addresses: token.server_addresses.iter().flatten().copied().collect(),
            client_to_server_key: token.client_to_server_key,
            server_to_client_key: token.server_to_client_key,
            user_data: token.user_data,
        })
    }
}

/// Seals a private token in place.
pub fn seal(data: &mut [u8; 1024], protocol: u64, expiry: u64, xnonce: &[u8; 24], key: &[u8; 32]) {
    let additional = get_additional_data(protocol, expiry);
    let sealed = encrypt_in_place_xnonce(data, xnonce, key, &additional);
    sealed.expect("a cipher that seals");
}
