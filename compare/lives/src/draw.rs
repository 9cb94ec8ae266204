//! The next call, drawn with an eye on what the Rust's server is just now, so that most calls get somewhere.

use std::collections::VecDeque;
use std::net::SocketAddr;

use oracle::lives::{self, NetcodeServer};

use crate::call::{Call, Start, Turn};
use crate::hear::Outcome;
use crate::rng::Rng;

mod client;
mod packets;
mod pokes;
mod requests;
mod upkeep;

pub use client::Client;

/// What a life is about.
#[derive(Debug, Clone, Copy, PartialEq, Eq)]
pub enum Mood {
    Ordinary,
    /// As many slots as there can be.
    Wide,
    /// No pending place free, or one.
    Crowded,
    /// For the sample: few addresses and places, no pokes.
    Small,
    /// For the sample too, with pokes.
    Altered,
    /// For the sample too: no pending place free.
    Packed,
}

impl Mood {
    fn is_small(self) -> bool {
        matches!(self, Self::Small | Self::Altered | Self::Packed)
    }
}

pub struct World {
    pub rng: Rng,
    pub mood: Mood,
    pub start: Start,
    clients: Vec<Client>,
    planned: VecDeque<Call>,
    /// After how many calls the counters, brought near their ends, are low again; 0 where they are.
    spent_for: usize,
}

impl World {
    pub fn new(mut rng: Rng, mood: Mood) -> Self {
        let start = draw_start(&mut rng, mood);
        let mut world = Self {
            rng,
            mood,
            start,
            clients: Vec::new(),
            planned: VecDeque::new(),
            spent_for: 0,
        };
        let count = if mood.is_small() {
            4
        } else {
            world.rng.below(6) + world.start.max_clients.min(6) + 1
        };
        for number in 0..count {
            let client = world.draw_client(number, world.start.secs);
            world.clients.push(client);
        }
        let planned = match mood {
            Mood::Crowded => world.draw_crowd(),
            Mood::Packed => world.packed(),
            _ => Vec::new(),
        };
        world.planned.extend(planned);
        world
    }

    pub fn turn(&mut self, server: &NetcodeServer) -> Turn {
        self.spent_for = self.spent_for.saturating_sub(1);
        let call = match self.planned.pop_front() {
            Some(call) => call,
            None if self.spent_for == 1 => self.low_counters(),
            None => self.call(server),
        };
        let call = upkeep::short_of_the_last(server, call);
        let no = self.rng.one_in(14).then(|| self.rng.below(4));
        let misuse = self.rng.one_in(if self.mood.is_small() { 40 } else { 20 });
        let tight = !self.mood.is_small() && self.rng.one_in(4);
        Turn {
            call,
            no,
            misuse,
            tight,
        }
    }

    fn call(&mut self, server: &NetcodeServer) -> Call {
        let who = self.rng.below(self.clients.len());
        match self.rng.below(100) {
            0..=33 => self.progress(server, who),
            34..=43 => self.draw_request(server, who),
            44..=61 => self.draw_sealed(server, who),
            62..=64 => self.draw_junk(who),
            65..=73 => self.draw_update(server),
            74..=76 => self.draw_limit(),
            77..=81 => self.draw_payload(server),
            82..=88 => Call::UpdateClient {
                id: self.draw_id(server),
            },
            89 => Call::Disconnect {
                id: self.draw_id(server),
            },
            90..=92 => Call::Query {
                id: self.draw_id(server),
            },
            93 => Call::Misuse,
            _ => match self.mood {
                Mood::Small | Mood::Packed => self.progress(server, who),
                Mood::Altered => self.draw_small_poke(server),
                _ => self.draw_poke(server),
            },
        }
    }

    /// The next step of a client that does as it should.
    fn progress(&mut self, server: &NetcodeServer, who: usize) -> Call {
        let from = self.clients[who].from;
        if is_connected(server, from) {
            self.good_packet(server, who)
        } else if lives::is_pending(server, from) {
            self.good_response(server, who)
        } else {
            self.good_request(server, who)
        }
    }

    /// An id that is connected, mostly.
    fn draw_id(&mut self, server: &NetcodeServer) -> u64 {
        let ids = server.clients_id();
        if ids.is_empty() || self.rng.one_in(8) {
            return self.rng.below(12) as u64;
        }
        ids[self.rng.below(ids.len())]
    }

    /// What the server sent, as its client sees it.
    pub fn heard(&mut self, outcome: &Outcome) {
        let Outcome::Send { to, packet } = outcome else {
            return;
        };
        let protocol = self.start.protocol;
        let sent_to = self.clients.iter_mut().filter(|client| client.from == *to);
        for client in sent_to {
            client.take(packet, protocol);
        }
    }
}

/// The slot of an address.
fn slot_at(server: &NetcodeServer, from: SocketAddr) -> Option<usize> {
    let is_there = |slot: &usize| lives::slot(server, *slot).is_some_and(|row| row.1 == from);
    (0..lives::slots(server)).find(is_there)
}

fn is_connected(server: &NetcodeServer, from: SocketAddr) -> bool {
    slot_at(server, from).is_some()
}

fn draw_start(rng: &mut Rng, mood: Mood) -> Start {
    let max_clients = match mood {
        _ if mood.is_small() => 1 + rng.below(3),
        Mood::Wide => 1024,
        _ => rng.pick(&[1, 2, 2, 3, 4, 8]),
    };
    let secs = match rng.below(10) {
        0 if !mood.is_small() => u64::MAX - 1 - rng.below(2000) as u64,
        1 => 0,
        _ => 1_000 + rng.below(100_000) as u64,
    };
    let public = [
        ([192, 0, 2, 1], 5000).into(),
        (
            [0x20, 1, 0xd, 0xb8, 0, 0, 0, 0, 0, 0, 0, 0, 0, 0, 0, 1],
            5001,
        )
            .into(),
        ([192, 0, 2, 1], 5001).into(),
    ];
    Start {
        secs,
        nanos: rng.pick(&[0, 1, 999_999_999, 500_000_000]),
        max_clients,
        protocol: rng.next(),
        secure: !rng.one_in(4),
        connect_key: rng.array(),
        seed: rng.next(),
        public: public[..1 + rng.below(3)].to_vec(),
        pending: if mood.is_small() { 4 } else { 4096 },
        out: if rng.one_in(4) {
            1400 + rng.below(200)
        } else {
            1400
        },
    }
}
