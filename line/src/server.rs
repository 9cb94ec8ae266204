//! The line server: the proved library behind a socket. It books each reading under the pump whose connection it came by, and
//! acknowledges it.

use std::io;
use std::net::{SocketAddr, UdpSocket};
use std::time::Duration;

use netcode::{NetcodeServer, ServerAuthentication, ServerConfig, ServerResult, NETCODE_KEY_BYTES};

use crate::book::{Book, Cause, Change, Counted};
use crate::reading::Reading;
use crate::sockets::{loopback, receive, BUFFER_BYTES};

pub const PROTOCOL_ID: u64 = 0x10D1_5E00;

/// A goodbye is never answered, so it is sent several times, as the standard has it.
pub const GOODBYES: usize = 10;

pub struct LineServer {
    socket: UdpSocket,
    address: SocketAddr,
    netcode: NetcodeServer,
    now: Duration,
    pub book: Book,
}

impl LineServer {
    pub fn new(max_clients: usize, private_key: [u8; NETCODE_KEY_BYTES]) -> io::Result<Self> {
        let (socket, address) = loopback()?;
        let netcode = NetcodeServer::new(ServerConfig {
            current_time: Duration::ZERO,
            max_clients,
            protocol_id: PROTOCOL_ID,
            public_addresses: vec![address],
            authentication: ServerAuthentication::Secure { private_key },
        });
        Ok(Self {
            socket,
            address,
            netcode,
            now: Duration::ZERO,
            book: Book::default(),
        })
    }

    pub fn address(&self) -> SocketAddr {
        self.address
    }

    pub fn is_connected(&self, client_id: u64) -> bool {
        self.netcode.is_client_connected(client_id)
    }

    /// Moves the clock on, then keeps each client alive or gives it up.
    pub fn update(&mut self, elapsed: Duration) -> io::Result<()> {
        self.now += elapsed;
        self.netcode.update(elapsed);
        for client_id in self.netcode.clients_id() {
            match self.netcode.update_client(client_id) {
                ServerResult::PacketToSend { addr, payload } => {
                    send(&self.socket, &mut self.book, addr, payload)?;
                }
                ServerResult::ClientDisconnected {
                    client_id,
                    addr,
                    payload,
                } => {
                    let end = Change::Ended(Cause::Silence);
                    self.book.event(addr, client_id, self.now, end);
                    goodbye(&self.socket, &mut self.book, addr, payload)?;
                }
                _ => {}
            }
        }
        Ok(())
    }

    /// Takes all that has come.
    pub fn receive(&mut self) -> io::Result<()> {
        let mut buffer = [0; BUFFER_BYTES];
        while let Some((length, from)) = receive(&self.socket, &mut buffer)? {
            self.book.account(from).arrived += 1;
            self.take(from, &mut buffer[..length])?;
        }
        Ok(())
    }

    fn take(&mut self, from: SocketAddr, datagram: &mut [u8]) -> io::Result<()> {
        let book = &mut self.book;
        match self.netcode.process_packet(from, datagram) {
            ServerResult::None => {
                if let Some(refusal) = self.netcode.refusal() {
                    let refused = &mut book.account(from).refused;
                    *refused.entry(refusal.number()).or_default() += 1;
                }
                Ok(())
            }
            ServerResult::PacketToSend { addr, payload } => send(&self.socket, book, addr, payload),
            ServerResult::Payload { client_id, payload } => self.count(from, client_id, payload),
            ServerResult::ClientConnected {
                client_id,
                addr,
                user_data,
                payload,
            } => {
                let user_data = user_data.to_vec();
                book.event(addr, client_id, self.now, Change::Connected { user_data });
                send(&self.socket, book, addr, payload)
            }
            ServerResult::ClientDisconnected {
                client_id, addr, ..
            } => {
                book.event(addr, client_id, self.now, Change::Ended(Cause::Pump));
                Ok(())
            }
        }
    }

    fn count(&mut self, from: SocketAddr, client_id: u64, payload: &[u8]) -> io::Result<()> {
        self.book.counted.push(Counted {
            client_id,
            payload: payload.to_vec(),
        });
        self.book.account(from).counted += 1;
        let Some(reading) = Reading::read(payload) else {
            return Ok(());
        };
        let acknowledgement = reading.number.to_le_bytes();
        match self
            .netcode
            .generate_payload_packet(client_id, &acknowledgement)
        {
            Ok((addr, packet)) => send(&self.socket, &mut self.book, addr, packet),
            Err(error) => Err(io::Error::other(error)),
        }
    }

    /// Sends every client away.
    pub fn dismiss(&mut self) -> io::Result<()> {
        for client_id in self.netcode.clients_id() {
            if let ServerResult::ClientDisconnected { addr, payload, .. } =
                self.netcode.disconnect(client_id)
            {
                let end = Change::Ended(Cause::Server);
                self.book.event(addr, client_id, self.now, end);
                goodbye(&self.socket, &mut self.book, addr, payload)?;
            }
        }
        Ok(())
    }
}

fn send(socket: &UdpSocket, book: &mut Book, to: SocketAddr, packet: &[u8]) -> io::Result<()> {
    socket.send_to(packet, to)?;
    book.account(to).sent += 1;
    Ok(())
}

fn goodbye(
    socket: &UdpSocket,
    book: &mut Book,
    to: SocketAddr,
    packet: Option<&mut [u8]>,
) -> io::Result<()> {
    if let Some(packet) = packet {
        for _ in 0..GOODBYES {
            send(socket, book, to, packet)?;
        }
    }
    Ok(())
}
