// The plant's own code: `library` is the crate that it is compiled against.

use std::net::SocketAddr;
use std::time::Duration;

use library::{NetcodeServer, ServerAuthentication, ServerConfig, ServerResult};

use super::{Client, Event, Plant, Setting, Standing, PROTOCOL};

pub fn config(setting: &Setting) -> ServerConfig {
    ServerConfig {
        current_time: setting.current_time,
        max_clients: setting.max_clients,
        protocol_id: PROTOCOL,
        public_addresses: setting.public_addresses.clone(),
        authentication: match setting.key {
            Some(private_key) => ServerAuthentication::Secure { private_key },
            None => ServerAuthentication::Unsecure,
        },
    }
}

fn event(result: ServerResult<'_, '_>, buffer: usize) -> Event {
    match result {
        ServerResult::None => Event::Nothing,
        ServerResult::PacketToSend { addr, payload } => Event::Send {
            to: addr,
            packet: payload.to_vec(),
        },
        ServerResult::Payload { client_id, payload } => Event::Reading {
            pump: client_id,
            at: payload.as_ptr() as usize - buffer,
            bytes: payload.to_vec(),
        },
        ServerResult::ClientConnected {
            client_id,
            addr,
            user_data,
            payload,
        } => Event::Came {
            pump: client_id,
            at: addr,
            user_data: user_data.to_vec(),
            packet: payload.to_vec(),
        },
        ServerResult::ClientDisconnected {
            client_id,
            addr,
            payload,
        } => Event::Left {
            pump: client_id,
            at: addr,
            packet: payload.map(|packet| packet.to_vec()),
        },
    }
}

impl Plant for NetcodeServer {
    fn arrived(&mut self, from: SocketAddr, buffer: &mut [u8]) -> Event {
        let start = buffer.as_ptr() as usize;
        event(self.process_packet(from, buffer), start)
    }

    fn send(&mut self, pump: u64, bytes: &[u8]) -> Result<(SocketAddr, Vec<u8>), String> {
        match self.generate_payload_packet(pump, bytes) {
            Ok((to, packet)) => Ok((to, packet.to_vec())),
            Err(error) => Err(format!("{error:?}: {error}")),
        }
    }

    fn step(&mut self, by: Duration) {
        self.update(by);
    }

    fn turn(&mut self, pump: u64) -> Event {
        event(self.update_client(pump), 0)
    }

    fn send_away(&mut self, pump: u64) -> Event {
        event(self.disconnect(pump), 0)
    }

    fn limit(&mut self, clients: usize) {
        self.set_max_clients(clients);
    }

    fn standing(&self, asked: &[u64]) -> Standing {
        Standing {
            clock: self.current_time(),
            limit: self.max_clients(),
            addresses: self.addresses(),
            connected: self.connected_clients(),
            ids: self.clients_id(),
            listed: self.clients_id_iter().collect(),
            slots: self.clients_slot(),
            clients: asked
                .iter()
                .map(|&id| Client {
                    connected: self.is_client_connected(id),
                    addr: self.client_addr(id),
                    since: self.time_since_last_received_packet(id),
                    user_data: self.user_data(id),
                })
                .collect(),
        }
    }
}
