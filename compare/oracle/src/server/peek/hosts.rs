use std::{net::SocketAddr, time::Duration};

use super::super::{
    NetcodeError, PrivateConnectToken, ServerAuthentication, ServerResult, NETCODE_VERSION_INFO,
};
use super::{server, KEY, PROTOCOL};

const EXPIRY: u64 = 1;
const NONCE: [u8; 24] = [7; 24];

/// Whether a secure server with these addresses takes a request whose token names those, which are 32
/// at most. The test stands in the midst of `handle_connection_request`, behind the token's opening.
pub fn is_in_host_list(token: &[SocketAddr], public: &[SocketAddr]) -> bool {
    let secure = ServerAuthentication::Secure { private_key: KEY };
    let mut server = server(Duration::ZERO, secure);
    server.public_addresses = public.to_vec();
    let from = ([127, 0, 0, 1], 1).into();
    let version = *NETCODE_VERSION_INFO;
    let data = private(token);
    let came = server.handle_connection_request(from, version, PROTOCOL, EXPIRY, NONCE, data);
    match came {
        Ok(ServerResult::PacketToSend { .. }) => true,
        Err(NetcodeError::NotInHostList) => false,
        other => panic!("a request came to {other:?}"),
    }
}

/// The private data of a token.
fn private(addresses: &[SocketAddr]) -> [u8; 1024] {
    let mut server_addresses = [None; 32];
    for (place, address) in server_addresses.iter_mut().zip(addresses) {
        *place = Some(*address);
    }
    let token = PrivateConnectToken {
        client_id: 0,
        timeout_seconds: 0,
        server_addresses,
        client_to_server_key: KEY,
        server_to_client_key: KEY,
        user_data: [0; 256],
    };
    let mut data = [0; 1024];
    let encoded = token.encode(&mut data, PROTOCOL, EXPIRY, &NONCE, &KEY);
    encoded.expect("room for a token");
    data
}
