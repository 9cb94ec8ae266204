//! A simulated pump: renetcode's own client, unchanged, over a socket. It writes down every datagram that it makes.

use std::collections::HashMap;
use std::error::Error;
use std::io;
use std::net::{SocketAddr, UdpSocket};
use std::time::Duration;

use oracle::{ClientAuthentication, ConnectToken, DisconnectReason, NetcodeClient};

use crate::draw::Draw;
use crate::reading::Reading;
use crate::server::GOODBYES;
use crate::sockets::{loopback, receive, BUFFER_BYTES};

/// A pump that has fallen behind its rate makes no more readings at a time.
const AT_ONCE: u64 = 32;

/// A reading's figure is below this.
const MOST_MICROGRAMS: u64 = 100_000;

#[derive(Debug, Clone, Copy, PartialEq, Eq)]
pub enum Mode {
    Reporting,
    /// Kept alive, without readings.
    Idle,
    /// Listens and sends nothing.
    Silent,
}

/// What a pump knows of its own sending and hearing.
#[derive(Debug, Clone, Default)]
pub struct Record {
    pub user_data: Vec<u8>,
    /// The payloads of the readings; that of reading 1 is the first.
    pub readings: Vec<Vec<u8>>,
    /// Every datagram that it made, with the number of the reading in it if there is one.
    pub datagrams: HashMap<Vec<u8>, Option<u64>>,
    /// The readings that the server has acknowledged, in the order of the acknowledgements.
    pub acknowledged: Vec<u64>,
}

pub struct Pump {
    id: u64,
    socket: UdpSocket,
    address: SocketAddr,
    client: NetcodeClient,
    rate: u64,
    draw: Draw,
    reporting_for: Duration,
    sent: u64,
    heard: u64,
    pub mode: Mode,
    pub record: Record,
}

impl Pump {
    /// A pump that starts with the token's time.
    pub fn new(token: ConnectToken, user_data: &[u8], rate: u64) -> Result<Self, Box<dyn Error>> {
        let (socket, address) = loopback()?;
        let id = token.client_id;
        let start = Duration::from_secs(token.create_timestamp);
        let authentication = ClientAuthentication::Secure {
            connect_token: token,
        };
        Ok(Self {
            id,
            socket,
            address,
            client: NetcodeClient::new(start, authentication)?,
            rate,
            draw: Draw::new(id),
            reporting_for: Duration::ZERO,
            sent: 0,
            heard: 0,
            mode: Mode::Reporting,
            record: Record {
                user_data: user_data.to_vec(),
                ..Record::default()
            },
        })
    }

    pub fn id(&self) -> u64 {
        self.id
    }

    pub fn address(&self) -> SocketAddr {
        self.address
    }

    /// Datagrams sent.
    pub fn sent(&self) -> u64 {
        self.sent
    }

    /// Datagrams received.
    pub fn heard(&self) -> u64 {
        self.heard
    }

    pub fn is_connected(&self) -> bool {
        self.client.is_connected()
    }

    pub fn disconnect_reason(&self) -> Option<DisconnectReason> {
        self.client.disconnect_reason()
    }

    /// Its turn after each step of the clock.
    pub fn update(&mut self, elapsed: Duration, proxy: SocketAddr) -> io::Result<()> {
        if self.mode == Mode::Silent {
            return Ok(());
        }
        if let Some((packet, _)) = self.client.update(elapsed) {
            self.record.datagrams.insert(packet.to_vec(), None);
            self.socket.send_to(packet, proxy)?;
            self.sent += 1;
        }
        if self.mode == Mode::Reporting && self.client.is_connected() {
            self.reporting_for += elapsed;
            self.report_due(proxy)?;
        }
        Ok(())
    }

    fn report_due(&mut self, proxy: SocketAddr) -> io::Result<()> {
        let due = self.reporting_for.as_millis() as u64 * self.rate / 1000;
        let made = self.record.readings.len() as u64;
        for number in made + 1..=due.min(made + AT_ONCE) {
            self.report(number, proxy)?;
        }
        Ok(())
    }

    fn report(&mut self, number: u64, proxy: SocketAddr) -> io::Result<()> {
        let reading = Reading {
            pump: self.id,
            number,
            micrograms: self.draw.below(MOST_MICROGRAMS) as u32,
        };
        let payload = reading.write();
        let packet = self.client.generate_payload_packet(&payload);
        let (_, packet) = packet.map_err(io::Error::other)?;
        self.record.datagrams.insert(packet.to_vec(), Some(number));
        self.record.readings.push(payload);
        self.socket.send_to(packet, proxy)?;
        self.sent += 1;
        Ok(())
    }

    /// Takes all that has come.
    pub fn receive(&mut self, proxy: SocketAddr) -> io::Result<()> {
        let mut buffer = [0; BUFFER_BYTES];
        while let Some((length, from)) = receive(&self.socket, &mut buffer)? {
            if from != proxy {
                continue;
            }
            self.heard += 1;
            let payload = self.client.process_packet(&mut buffer[..length]);
            if let Some(number) = payload.and_then(|payload| payload.try_into().ok()) {
                self.record.acknowledged.push(u64::from_le_bytes(number));
            }
        }
        Ok(())
    }

    /// Says goodbye; from then on it is silent.
    pub fn disconnect(&mut self, proxy: SocketAddr) -> io::Result<()> {
        self.mode = Mode::Silent;
        let (_, packet) = self.client.disconnect().map_err(io::Error::other)?;
        self.record.datagrams.insert(packet.to_vec(), None);
        for _ in 0..GOODBYES {
            self.socket.send_to(packet, proxy)?;
            self.sent += 1;
        }
        Ok(())
    }
}
