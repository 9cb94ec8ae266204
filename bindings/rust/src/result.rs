use std::net::SocketAddr;

use crate::NETCODE_USER_DATA_BYTES;

/// What a packet, or a client's turn, came to.
#[derive(Debug, PartialEq, Eq)]
pub enum ServerResult<'a, 's> {
    /// Nothing needs to be done.
    None,
    /// A packet to be sent back to the processed address.
    PacketToSend {
        /// Where it goes.
        addr: SocketAddr,
        /// The packet, in the server's own output.
        payload: &'s mut [u8],
    },
    /// A payload received from the client.
    Payload {
        /// Whose it is.
        client_id: u64,
        /// The payload, a part of the buffer that was handed in.
        payload: &'a [u8],
    },
    /// A new client has connected.
    ClientConnected {
        /// Which.
        client_id: u64,
        /// Where from.
        addr: SocketAddr,
        /// What its token carries for the application.
        user_data: Box<[u8; NETCODE_USER_DATA_BYTES]>,
        /// The packet that tells it, in the server's own output.
        payload: &'s mut [u8],
    },
    /// The client connection has been terminated.
    ClientDisconnected {
        /// Which.
        client_id: u64,
        /// Where it was.
        addr: SocketAddr,
        /// The packet that tells it, in the server's own output, where there is one.
        payload: Option<&'s mut [u8]>,
    },
}
