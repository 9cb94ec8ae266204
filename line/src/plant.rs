//! The server, the pumps and their links, moved on together by steps of the clock. All is done by one thread, one part after the other,
//! so what is in a receive buffer of the system is taken out before more can come.

use std::error::Error;
use std::io;
use std::time::Duration;

use netcode::{generate_random_bytes, NETCODE_USER_DATA_BYTES};
use oracle::ConnectToken;

use crate::audit::{audit, History, Report};
use crate::draw::Draw;
use crate::options::Options;
use crate::proxy::Link;
use crate::pump::{Mode, Pump};
use crate::server::{LineServer, PROTOCOL_ID};

const TOKEN_EXPIRES_AFTER: u64 = 300;

pub struct Plant {
    pub server: LineServer,
    pub pumps: Vec<Pump>,
    pub links: Vec<Link>,
    now: Duration,
    timeout: Duration,
}

impl Plant {
    /// The server gives a pump up after so many seconds of silence.
    pub fn new(options: &Options, timeout_seconds: u8) -> Result<Self, Box<dyn Error>> {
        let key = generate_random_bytes();
        let server = LineServer::new(options.pumps as usize, key)?;
        let mut plant = Self {
            server,
            pumps: Vec::new(),
            links: Vec::new(),
            now: Duration::ZERO,
            timeout: Duration::from_secs(timeout_seconds.into()),
        };
        let mut seeds = Draw::new(options.seed);
        for id in 1..=options.pumps {
            let user_data = user_data(id);
            let token = ConnectToken::generate(
                plant.now,
                PROTOCOL_ID,
                TOKEN_EXPIRES_AFTER,
                id,
                timeout_seconds.into(),
                vec![plant.server.address()],
                Some(&user_data),
                &key,
            )?;
            plant.add(
                Pump::new(token, &user_data, options.rate)?,
                options,
                seeds.number(),
            )?;
        }
        Ok(plant)
    }

    fn add(&mut self, pump: Pump, options: &Options, seed: u64) -> io::Result<()> {
        let link = Link::new(pump.address(), self.server.address(), options.habits, seed)?;
        self.server.book.open(link.far_address());
        self.pumps.push(pump);
        self.links.push(link);
        Ok(())
    }

    pub fn now(&self) -> Duration {
        self.now
    }

    pub fn step(&mut self, elapsed: Duration) -> io::Result<()> {
        self.now += elapsed;
        self.server.update(elapsed)?;
        for (pump, link) in self.pumps.iter_mut().zip(&mut self.links) {
            pump.update(elapsed, link.near_address())?;
            link.carry_up(self.now)?;
            self.server.receive()?;
            link.carry_down(self.now)?;
            pump.receive(link.near_address())?;
        }
        Ok(())
    }

    pub fn silence(&mut self) {
        for pump in &mut self.pumps {
            pump.mode = Mode::Silent;
        }
    }

    /// Whether all that the pumps sent has reached the server or is lost.
    pub fn is_drained(&self) -> bool {
        self.pumps.iter().zip(&self.links).all(|(pump, link)| {
            let account = self.server.book.look(link.far_address());
            link.up().is_through(pump.sent()) && account.arrived == link.delivered().len()
        })
    }

    /// Whether all that the server sent has reached the pumps or is lost.
    pub fn is_settled(&self) -> bool {
        self.pumps.iter().zip(&self.links).all(|(pump, link)| {
            let account = self.server.book.look(link.far_address());
            link.down().is_through(account.sent) && pump.heard() == link.handed_down()
        })
    }

    pub fn audit(&self) -> Report {
        let book = &self.server.book;
        let histories: Vec<History> = self
            .pumps
            .iter()
            .zip(&self.links)
            .map(|(pump, link)| History {
                pump: pump.id(),
                record: &pump.record,
                delivered: link.delivered(),
                account: book.look(link.far_address()),
            })
            .collect();
        audit(&histories, &book.counted, self.timeout)
    }
}

/// What a pump's token carries for the application: its name.
fn user_data(id: u64) -> [u8; NETCODE_USER_DATA_BYTES] {
    let mut user_data = [0; NETCODE_USER_DATA_BYTES];
    let name = format!("pump {id}");
    user_data[..name.len()].copy_from_slice(name.as_bytes());
    user_data
}
