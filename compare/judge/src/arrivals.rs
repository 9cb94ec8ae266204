//! Long runs of arrivals through one window, which is kept from case to case.

use crate::case::{Case, Decode, Key, Window, HIGH};
use crate::datagrams::body;
use crate::judge::{Found, Judge};
use crate::make::{Parts, FRESH};
use crate::rng::Rng;

pub struct Arrivals {
    pub runs: u64,
    left: usize,
    protocol: u64,
    key: Key,
    window: Box<Window>,
    /// The next sequence that the sender would use.
    next: u64,
    /// What arrived, for repeats.
    past: Vec<Vec<u8>>,
    /// Out of 16: how many arrivals are out of order.
    disorder: usize,
}

impl Arrivals {
    pub fn new(rng: &mut Rng) -> Self {
        let start = match rng.below(8) {
            0..4 => 0,
            4 => rng.number() % HIGH,
            5 => (1 << 32) - rng.next() % 200,
            6 => (1 << (8 * (1 + rng.below(6)))) - rng.next() % 200,
            _ => HIGH - 1 - rng.next() % 400,
        };
        Self {
            runs: 1,
            left: 1 + rng.below(500),
            protocol: rng.number(),
            key: rng.array(),
            window: Box::new(FRESH),
            next: start,
            past: Vec::new(),
            disorder: rng.below(17),
        }
    }

    /// The next arrival; a run that is over makes place for another.
    pub fn put(&mut self, judge: &mut Judge, rng: &mut Rng) -> Result<(), Found> {
        if self.left == 0 {
            let runs = self.runs + 1;
            *self = Self {
                runs,
                ..Self::new(rng)
            };
        }
        self.left -= 1;
        let mut datagram = self.arrive(rng);
        if rng.one_in(16) {
            let at = rng.below(datagram.len());
            datagram[at] ^= 1 << rng.below(8);
        }
        let case = Case::Decode(Decode {
            datagram,
            protocol: self.protocol,
            key: Some(self.key),
            window: Some(self.window.clone()),
        });
        if let Some(window) = judge.put(case)?.window {
            self.window = window;
        }
        Ok(())
    }

    fn arrive(&mut self, rng: &mut Rng) -> Vec<u8> {
        let mixed = rng.below(16) < self.disorder;
        if mixed && rng.one_in(4) && !self.past.is_empty() {
            return self.past[rng.below(self.past.len())].clone();
        }
        let sequence = if mixed { self.mixed(rng) } else { self.step(1) };
        let kind = rng.pick(&[4, 5, 5, 6, 6, 6, 6, 3]);
        let kind = if kind == 3 && !rng.one_in(8) { 6 } else { kind };
        let body = body(rng, kind);
        let datagram = Parts::new(kind, sequence, body).seal(self.protocol, &self.key);
        if datagram.len() < 60 {
            self.past.push(datagram.clone());
        }
        datagram
    }

    /// Lost ones, late ones, ones at the window's end and ones behind it.
    fn mixed(&mut self, rng: &mut Rng) -> u64 {
        let highest = self.window[0];
        match rng.below(8) {
            0 => self.step(1 + rng.next() % 4),
            1 => self.step(rng.next() % 300),
            2 => highest.saturating_sub(rng.next() % 20),
            3 => highest.saturating_sub(rng.next() % 256),
            4 => highest.saturating_sub(253 + rng.next() % 6),
            5 => highest.saturating_sub(rng.next() % 1000),
            6 => highest,
            _ => rng.near(highest, 4).min(HIGH),
        }
    }

    fn step(&mut self, by: u64) -> u64 {
        let sequence = self.next;
        self.next = self.next.saturating_add(by);
        sequence
    }
}
