use std::{net::SocketAddr, time::Duration};

use super::super::{
    find_client_by_id, find_client_mut_by_addr, find_client_mut_by_id, find_client_slot_by_id,
    Connection, ConnectionState, NetcodeError, NetcodeServer, Packet, ServerAuthentication,
    ServerResult,
};
use super::{connection, server, KEY, PROTOCOL};

/// A client's id and address.
pub type Client = (u64, SocketAddr);

/// A server of which only the slots count; each client's sequence is its place.
pub struct Slots(NetcodeServer);

fn place_of(client: &Connection) -> usize {
    client.sequence as usize
}

impl Slots {
    /// Of any number: the searches take a slice, and only the root of the server has a limit.
    pub fn new(slots: impl Iterator<Item = Option<Client>>) -> Self {
        let mut server = server(Duration::ZERO, ServerAuthentication::Unsecure);
        server.clients = slots
            .enumerate()
            .map(|(place, slot)| slot.map(|(id, addr)| connection(id, addr, place as u64)))
            .collect();
        server.max_clients = server.clients.len();
        Self(server)
    }

    #[inline]
    pub fn by_address(&mut self, addr: SocketAddr) -> Option<usize> {
        find_client_mut_by_addr(&mut self.0.clients, addr).map(|(place, _)| place)
    }

    /// The place that the client found by its address says that it is.
    pub fn client_by_address(&mut self, addr: SocketAddr) -> Option<usize> {
        find_client_mut_by_addr(&mut self.0.clients, addr).map(|(_, client)| place_of(client))
    }

    #[inline]
    pub fn by_id(&self, client_id: u64) -> Option<usize> {
        find_client_slot_by_id(&self.0.clients, client_id)
    }

    /// The places that the clients say that they are which the two other searches by id find.
    pub fn clients_by_id(&mut self, client_id: u64) -> [Option<usize>; 2] {
        [
            find_client_by_id(&self.0.clients, client_id).map(place_of),
            find_client_mut_by_id(&mut self.0.clients, client_id).map(|client| place_of(client)),
        ]
    }

    pub fn connected_clients(&self) -> usize {
        self.0.connected_clients()
    }

    pub fn clients_slot(&self) -> Vec<usize> {
        self.0.clients_slot()
    }

    /// The place that a newcomer's response gets it; none where it is denied. The search for a free
    /// place stands in the midst of `process_packet_internal`, and only a response under good tags
    /// gets there, so the cipher works here too.
    pub fn take_free(&mut self) -> Option<usize> {
        let (client_id, addr) = self.newcomer();
        let mut pending = connection(client_id, addr, 0);
        pending.state = ConnectionState::PendingResponse;
        self.0.pending_clients.insert(addr, pending);
        let mut response = [0; 1400];
        let len = self.response(client_id, &mut response);
        match self.0.process_packet(addr, &mut response[..len]) {
            ServerResult::ClientConnected { .. } => {}
            ServerResult::PacketToSend { .. } => return None,
            other => panic!("a response came to {other:?}"),
        }
        self.by_id(client_id)
    }

    /// An id and an address that no slot has.
    fn newcomer(&self) -> Client {
        let clients = || self.0.clients.iter().flatten();
        let id = |id: &u64| clients().all(|client| client.client_id != *id);
        let addr = |addr: &SocketAddr| clients().all(|client| client.addr != *addr);
        let mut ids = (0..=u64::MAX).rev();
        let mut addresses = (0..=u16::MAX).map(|port| ([127, 0, 0, 1], port).into());
        (
            ids.find(id).expect("more ids than slots"),
            addresses.find(addr).expect("more ports than slots"),
        )
    }

    /// What a client sends back for a challenge of this server.
    fn response(&self, client_id: u64, out: &mut [u8]) -> usize {
        let challenge = Packet::generate_challenge(client_id, &[0; 256], 1, &self.0.challenge_key);
        let Ok(Packet::Challenge {
            token_sequence,
            token_data,
        }) = challenge
        else {
            panic!("no challenge")
        };
        let response = Packet::Response {
            token_sequence,
            token_data,
        };
        let encoded = response.encode(out, PROTOCOL, Some((1, &KEY)));
        encoded.expect("room for a response")
    }
}

/// Whether an address is pending, by which error a datagram with no good tag comes to: with a record
/// its key refuses it, without one there is no key.
pub fn is_pending(addresses: impl Iterator<Item = SocketAddr>, wanted: SocketAddr) -> bool {
    let mut server = server(Duration::ZERO, ServerAuthentication::Unsecure);
    let pending = addresses.map(|addr| (addr, connection(0, addr, 0)));
    server.pending_clients = pending.collect();
    let mut keep_alive = [0; 26];
    keep_alive[0] = 0x14;
    let came = server.process_packet_internal(wanted, &mut keep_alive);
    match came {
        Err(NetcodeError::CryptoError) => true,
        Err(NetcodeError::UnavailablePrivateKey) => false,
        other => panic!("a datagram with no good tag came to {other:?}"),
    }
}
