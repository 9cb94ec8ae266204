mod queries;

use std::fmt;
use std::net::SocketAddr;
use std::time::Duration;

use crate::address::Address;
use crate::answer::Answer;
use crate::call::Call;
use crate::sys::{Server, Setting};
use crate::{
    generate_random_bytes, Cipher, NetcodeError, Refusal, ServerAuthentication, ServerConfig,
    ServerResult, Sodium, NETCODE_KEY_BYTES, NETCODE_USER_DATA_BYTES,
};

/// A server that makes encrypted packets for its clients and reads those that came from them. It knows no transport: it takes and gives
/// bytes, which can be carried in any way.
///
/// All its memory is its own and allocated once, when it is made: 2,480 bytes for each of `max_clients` slots and about 10 MB for those
/// that wait. It goes to another thread where its cipher does.
pub struct NetcodeServer<C: Cipher = Sodium> {
    server: Server,
    cipher: C,
    /// What the challenge that was opened last carries.
    user_data: [u8; NETCODE_USER_DATA_BYTES],
}

impl NetcodeServer {
    /// A server with a random challenge key.
    ///
    /// # Panics
    ///
    /// Where [`NetcodeServer::try_new`] gives a refusal.
    pub fn new(config: ServerConfig) -> Self {
        match Self::try_new(config) {
            Ok(server) => server,
            Err(refusal) => panic!("the server is not set up: {refusal}"),
        }
    }

    /// A server with a random challenge key, or the refusal of its set-up: [`Refusal::Tables`] for more than 1,024 clients.
    /// [`Refusal::MalformedAddress`] and [`Refusal::ClockRange`] need values that `SocketAddr` and `Duration` do not have.
    pub fn try_new(config: ServerConfig) -> Result<Self, Refusal> {
        Self::with_cipher(config, generate_random_bytes(), Sodium::new())
    }
}

impl<C: Cipher> NetcodeServer<C> {
    /// A server with a cipher of one's own and a challenge key, which has to be random and for this server alone.
    pub fn with_cipher(
        config: ServerConfig,
        challenge_key: [u8; NETCODE_KEY_BYTES],
        cipher: C,
    ) -> Result<Self, Refusal> {
        let connect_key = match config.authentication {
            ServerAuthentication::Unsecure => None,
            ServerAuthentication::Secure { private_key } => Some(private_key),
        };
        let addresses = config.public_addresses.into_iter().map(Address::from);
        let server = Server::set_up(Setting {
            current_time: config.current_time,
            max_clients: config.max_clients,
            protocol_id: config.protocol_id,
            connect_key,
            challenge_key,
            public_addresses: addresses.flat_map(|address| address.words()).collect(),
        })?;
        Ok(Self {
            server,
            cipher,
            user_data: [0; NETCODE_USER_DATA_BYTES],
        })
    }

    /// Why the last call that may change the server said no: what renetcode logs, or panics about. None where it did not say no, also
    /// where it had nothing to do.
    pub fn refusal(&self) -> Option<Refusal> {
        self.server.refusal()
    }

    /// Processes a packet from the address. Returns what it came to, see [ServerResult].
    ///
    /// A payload is opened in the buffer. The address counts without its flow label and scope.
    pub fn process_packet<'a, 's>(
        &'s mut self,
        addr: SocketAddr,
        buffer: &'a mut [u8],
    ) -> ServerResult<'a, 's> {
        self.server.process_packet(&Address::from(addr), buffer);
        self.settle(buffer);
        self.result(buffer)
    }

    /// Returns a payload packet to be sent to the client, and where to.
    pub fn generate_payload_packet<'s>(
        &'s mut self,
        client_id: u64,
        payload: &[u8],
    ) -> Result<(SocketAddr, &'s mut [u8]), NetcodeError> {
        self.server.generate_payload_packet(client_id, payload);
        self.settle(&mut []);
        match self.server.answer() {
            Answer::PacketToSend { addr, end } => Ok((addr, self.server.packet(end))),
            _ => Err(self.error()),
        }
    }

    /// Advances the server's clock, and removes pending connections that have expired. A step past the last time that a
    /// `Duration` has is refused, and the clock stays.
    pub fn update(&mut self, duration: Duration) {
        self.server.update(duration);
    }

    /// Gives the client its turn, after each step of the clock: a keep-alive where one is due, its end where it is overdue.
    ///
    /// # Example
    /// ```
    /// # use netcode::{NetcodeServer, ServerAuthentication, ServerConfig, ServerResult};
    /// # let mut server = NetcodeServer::new(ServerConfig {
    /// #     current_time: std::time::Duration::ZERO,
    /// #     max_clients: 32,
    /// #     protocol_id: 0,
    /// #     public_addresses: vec![],
    /// #     authentication: ServerAuthentication::Unsecure,
    /// # });
    /// for client_id in server.clients_id().into_iter() {
    ///     match server.update_client(client_id) {
    ///         ServerResult::PacketToSend { payload, addr } => send_to(payload, addr),
    ///         _ => { /* ... */ }
    ///     }
    /// }
    /// # fn send_to(p: &[u8], addr: std::net::SocketAddr) {}
    /// ```
    pub fn update_client(&mut self, client_id: u64) -> ServerResult<'_, '_> {
        self.server.update_client(client_id);
        self.settle(&mut []);
        self.result(&[])
    }

    /// Disconnects a client and returns its address and a disconnect packet to be sent to it.
    pub fn disconnect(&mut self, client_id: u64) -> ServerResult<'_, '_> {
        self.server.disconnect(client_id);
        self.settle(&mut []);
        self.result(&[])
    }

    /// Updates the maximum number of clients that can be connected, capped at 1,024. The slots stay as many as they were.
    ///
    /// Changing the `max_clients` to a lower value than the current number of connected clients does not disconnect clients. So
    /// [`NetcodeServer::connected_clients()`] can return a higher value than [`NetcodeServer::max_clients()`].
    pub fn set_max_clients(&mut self, max_clients: usize) {
        self.server.set_max_clients(max_clients);
    }

    fn settle(&mut self, datagram: &mut [u8]) {
        let call = Call {
            server: &mut self.server,
            cipher: &mut self.cipher,
            user_data: &mut self.user_data,
            datagram,
        };
        call.settle();
    }

    fn result<'a, 's>(&'s mut self, buffer: &'a [u8]) -> ServerResult<'a, 's> {
        match self.server.answer() {
            Answer::Nothing => ServerResult::None,
            Answer::PacketToSend { addr, end } => ServerResult::PacketToSend {
                addr,
                payload: self.server.packet(end),
            },
            Answer::Payload {
                client_id,
                start,
                end,
            } => ServerResult::Payload {
                client_id,
                payload: &buffer[start..end],
            },
            Answer::Connected {
                client_id,
                addr,
                end,
            } => ServerResult::ClientConnected {
                client_id,
                addr,
                user_data: Box::new(self.user_data),
                payload: self.server.packet(end),
            },
            Answer::Disconnected {
                client_id,
                addr,
                end,
            } => ServerResult::ClientDisconnected {
                client_id,
                addr,
                payload: (end > 0).then(|| self.server.packet(end)),
            },
        }
    }

    fn error(&self) -> NetcodeError {
        match self.refusal() {
            Some(Refusal::PayloadAboveLimit) => NetcodeError::PayloadAboveLimit,
            Some(Refusal::ClientNotFound) => NetcodeError::ClientNotFound,
            _ => NetcodeError::CryptoError,
        }
    }
}

/// Without keys and tables.
impl<C: Cipher> fmt::Debug for NetcodeServer<C> {
    fn fmt(&self, f: &mut fmt::Formatter<'_>) -> fmt::Result {
        f.debug_struct("NetcodeServer")
            .field("current_time", &self.current_time())
            .field("max_clients", &self.max_clients())
            .field("clients_id", &self.clients_id())
            .finish_non_exhaustive()
    }
}
