//! A pump: renetcode's own client at an address of its own.

use std::net::SocketAddr;
use std::time::Duration;

use oracle::{ClientAuthentication, ConnectToken, NetcodeClient};

use super::{Both, Event};

pub const PROTOCOL: u64 = 7;
pub const KEY: [u8; 32] = [9; 32];
pub const HOST: &str = "10.0.0.1:5000";

pub struct Pump {
    pub id: u64,
    pub addr: SocketAddr,
    pub token: ConnectToken,
    pub client: NetcodeClient,
}

impl Pump {
    /// Its token is good for 300 s from 10 s on, names HOST and has a timeout of 15 s; its user data are all its id.
    pub fn new(id: u64) -> Self {
        Self::with_token(id, token(id, 300, 15, vec![HOST.parse().unwrap()]))
    }

    pub fn with_token(id: u64, token: ConnectToken) -> Self {
        let authentication = ClientAuthentication::Secure {
            connect_token: token.clone(),
        };
        let client = NetcodeClient::new(Duration::from_secs(10), authentication);
        Self {
            id,
            addr: SocketAddr::from(([10, 0, 1, id as u8], 4000)),
            token,
            client: client.expect("a client"),
        }
    }

    /// What it wants to send after so long a time.
    pub fn due(&mut self, after: Duration) -> Option<Vec<u8>> {
        self.client.update(after).map(|(packet, _)| packet.to_vec())
    }

    /// What it wants to send at once: a request or a response.
    pub fn asks(&mut self) -> Vec<u8> {
        self.due(Duration::ZERO).expect("a packet of the handshake")
    }

    pub fn reads(&mut self, mut packet: Vec<u8>) -> Option<Vec<u8>> {
        let payload = self.client.process_packet(&mut packet);
        payload.map(|bytes| bytes.to_vec())
    }

    pub fn reports(&mut self, reading: &[u8]) -> Vec<u8> {
        let (_, packet) = self.client.generate_payload_packet(reading).unwrap();
        packet.to_vec()
    }

    /// The request and what the server sends back.
    pub fn requests(&mut self, line: &mut Both) -> Vec<u8> {
        let mut request = self.asks();
        line.arrived(self.addr, &mut request).packet()
    }

    /// The whole handshake.
    pub fn connects(&mut self, line: &mut Both) -> Event {
        let challenge = self.requests(line);
        self.reads(challenge);
        let mut response = self.asks();
        let came = line.arrived(self.addr, &mut response);
        self.reads(came.clone().packet());
        assert!(self.client.is_connected());
        came
    }

    /// A packet that the client would not make, under the client's key.
    pub fn seals(&self, packet: &oracle::raw::Packet<'_>, sequence: u64) -> Vec<u8> {
        let key = &self.token.client_to_server_key;
        let mut buffer = vec![0; 2000];
        let len = packet.encode(&mut buffer, PROTOCOL, Some((sequence, key)));
        buffer.truncate(len.unwrap());
        buffer
    }
}

pub fn token(id: u64, expires: u64, timeout: i32, hosts: Vec<SocketAddr>) -> ConnectToken {
    let now = Duration::from_secs(10);
    let user_data = [id as u8; 256];
    let made = ConnectToken::generate(
        now,
        PROTOCOL,
        expires,
        id,
        timeout,
        hosts,
        Some(&user_data),
        &KEY,
    );
    made.expect("a token")
}
