//! A line: one server of each side and the pumps that are connected to both.

use std::net::SocketAddr;
use std::time::Duration;

use netcode::NetcodeServer;

use super::pumps::{connect, reading, Datagram, Pump};
use super::sides::{Pair, Server, START};

const PORT: u16 = 5000;
const FIRST_ID: u64 = 1000;
const LASTING_SECONDS: u64 = 1_000_000;

/// A pump, with what its packets are known by.
pub struct Connected<P> {
    pub pump: P,
    pub addr: SocketAddr,
    pub client_id: u64,
    pub key: [u8; 32],
}

pub struct Line<P: Pair> {
    pub rust: P::Rust,
    pub ours: NetcodeServer<P::Host>,
    pub pumps: Vec<Connected<P::Pump>>,
}

/// Address and id of a pump by its number, below 2^24.
pub fn known_as(number: usize) -> (SocketAddr, u64) {
    let [_, a, b, c] = (number as u32).to_be_bytes();
    (([10, a, b, c], PORT).into(), FIRST_ID + number as u64)
}

/// Two pumps of one token that is good for so long.
pub fn two<P: Pair>(now: Duration, number: usize, expire_seconds: u64) -> ([P::Pump; 2], [u8; 32]) {
    P::Pump::two(now, known_as(number).1, expire_seconds)
}

impl<P: Pair> Line<P> {
    pub fn new(slots: usize, connected: usize) -> Self {
        let (mut rust, mut ours) = (
            P::Rust::new(slots),
            <NetcodeServer<P::Host> as Server>::new(slots),
        );
        let pumps = (0..connected)
            .map(|number| {
                let (addr, client_id) = known_as(number);
                let ([mut pump, mut same], key) = two::<P>(START, number, LASTING_SECONDS);
                connect(&mut rust, &mut pump, addr, client_id);
                connect(&mut ours, &mut same, addr, client_id);
                Connected {
                    pump,
                    addr,
                    client_id,
                    key,
                }
            })
            .collect();
        Self { rust, ours, pumps }
    }
}

/// So many readings, of pumps drawn at random.
pub fn readings<P: Pump>(
    pumps: &mut [Connected<P>],
    draw: &mut Draw,
    count: usize,
) -> Vec<Datagram> {
    (0..count)
        .map(|_| {
            let of = &mut pumps[draw.below(pumps.len())];
            reading(&mut of.pump, of.addr, of.client_id)
        })
        .collect()
}

/// A generator of numbers, the same in each run.
pub struct Draw(u64);

impl Draw {
    pub fn new() -> Self {
        Self(1)
    }

    pub fn below(&mut self, limit: usize) -> usize {
        self.0 = self
            .0
            .wrapping_mul(6364136223846793005)
            .wrapping_add(1442695040888963407);
        (self.0 >> 33) as usize % limit
    }
}
