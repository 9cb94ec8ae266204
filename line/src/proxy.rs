//! The bad network: a link for each pump, which loses, repeats and reorders what passes it, and writes down what it delivers to the
//! server. It opens nothing.

use std::io;
use std::net::{SocketAddr, UdpSocket};
use std::time::Duration;

use crate::draw::Draw;
use crate::road::{Habits, Road};
use crate::sockets::{loopback, receive, BUFFER_BYTES};

/// A link hands on no more at a time, so that no receive buffer of the system overflows and loses some behind the proxy's back.
const AT_ONCE: usize = 64;

/// A datagram that was handed to the server.
#[derive(Debug, Clone)]
pub struct Delivered {
    pub at: Duration,
    pub datagram: Vec<u8>,
}

pub struct Link {
    /// Where the pump sends to.
    near: UdpSocket,
    near_address: SocketAddr,
    /// Its address is what the server knows the pump by.
    far: UdpSocket,
    far_address: SocketAddr,
    pump: SocketAddr,
    server: SocketAddr,
    up: Road,
    down: Road,
    delivered: Vec<Delivered>,
    handed_down: u64,
}

impl Link {
    pub fn new(
        pump: SocketAddr,
        server: SocketAddr,
        habits: Habits,
        seed: u64,
    ) -> io::Result<Self> {
        let (near, near_address) = loopback()?;
        let (far, far_address) = loopback()?;
        let mut seeds = Draw::new(seed);
        Ok(Self {
            near,
            near_address,
            far,
            far_address,
            pump,
            server,
            up: Road::new(habits, seeds.number()),
            down: Road::new(habits, seeds.number()),
            delivered: Vec::new(),
            handed_down: 0,
        })
    }

    pub fn near_address(&self) -> SocketAddr {
        self.near_address
    }

    pub fn far_address(&self) -> SocketAddr {
        self.far_address
    }

    /// What the server was handed, in this order.
    pub fn delivered(&self) -> &[Delivered] {
        &self.delivered
    }

    pub fn up(&self) -> &Road {
        &self.up
    }

    pub fn down(&self) -> &Road {
        &self.down
    }

    pub fn handed_down(&self) -> u64 {
        self.handed_down
    }

    /// From the pump to the server.
    pub fn carry_up(&mut self, now: Duration) -> io::Result<()> {
        take_all(&self.near, self.pump, &mut self.up, now)?;
        for _ in 0..AT_ONCE {
            let Some(datagram) = self.up.due(now) else {
                break;
            };
            self.far.send_to(&datagram, self.server)?;
            self.delivered.push(Delivered { at: now, datagram });
        }
        Ok(())
    }

    /// From the server to the pump.
    pub fn carry_down(&mut self, now: Duration) -> io::Result<()> {
        take_all(&self.far, self.server, &mut self.down, now)?;
        for _ in 0..AT_ONCE {
            let Some(datagram) = self.down.due(now) else {
                break;
            };
            self.near.send_to(&datagram, self.pump)?;
            self.handed_down += 1;
        }
        Ok(())
    }
}

fn take_all(
    socket: &UdpSocket,
    from: SocketAddr,
    road: &mut Road,
    now: Duration,
) -> io::Result<()> {
    let mut buffer = [0; BUFFER_BYTES];
    while let Some((length, sender)) = receive(socket, &mut buffer)? {
        if sender == from {
            road.take(&buffer[..length], now);
        }
    }
    Ok(())
}
