use std::net::SocketAddr;
use std::time::Duration;

use super::NetcodeServer;
use crate::address;
use crate::{Cipher, NETCODE_USER_DATA_BYTES};

const MAX_CLIENTS: usize = 1024;

impl<C: Cipher> NetcodeServer<C> {
    /// The server's own addresses, without flow label and scope.
    pub fn addresses(&self) -> Vec<SocketAddr> {
        let words = self.server.addresses();
        let three = words.chunks_exact(3);
        three
            .map(|w| address::from_words([w[0], w[1], w[2]]))
            .collect()
    }

    /// The server's clock.
    pub fn current_time(&self) -> Duration {
        self.server.itself().1
    }

    /// Returns the maximum number of clients that can be connected.
    pub fn max_clients(&self) -> usize {
        self.server.itself().0
    }

    /// Returns current number of clients connected.
    pub fn connected_clients(&self) -> usize {
        self.server.connected_clients()
    }

    /// Whether a client of this id is connected.
    pub fn is_client_connected(&self, client_id: u64) -> bool {
        self.server.is_client_connected(client_id)
    }

    /// Returns the user data from the connected client.
    pub fn user_data(&self, client_id: u64) -> Option<[u8; NETCODE_USER_DATA_BYTES]> {
        self.server.user_data(client_id)
    }

    /// Returns the duration since the connected client last received a packet.
    /// Useful to detect users that are timing out.
    pub fn time_since_last_received_packet(&self, client_id: u64) -> Option<Duration> {
        self.server.time_since_last_received_packet(client_id)
    }

    /// Returns the client address if connected.
    pub fn client_addr(&self, client_id: u64) -> Option<SocketAddr> {
        self.server.client_addr(client_id).map(address::from_words)
    }

    /// The slots of the connected clients.
    pub fn clients_slot(&self) -> Vec<usize> {
        let mut list = [0; MAX_CLIENTS];
        let count = self.server.clients_slot(&mut list);
        list[..count].iter().map(|&slot| slot as usize).collect()
    }

    /// Returns the ids from the connected clients (iterator).
    pub fn clients_id_iter(&self) -> impl Iterator<Item = u64> + '_ {
        let mut list = [0; MAX_CLIENTS];
        let count = self.server.clients_id(&mut list);
        list.into_iter().take(count)
    }

    /// Returns the ids from the connected clients.
    pub fn clients_id(&self) -> Vec<u64> {
        let mut list = [0; MAX_CLIENTS];
        let count = self.server.clients_id(&mut list);
        list[..count].to_vec()
    }
}
