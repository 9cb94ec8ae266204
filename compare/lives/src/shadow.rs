//! What our tables have to be, word by word, by what the Rust's are. A pending client has a place here, which the Rust's map does not
//! know: a newcomer's is the lowest free one, as document 01 says. Of an emptied place only the mark changes.

use std::collections::{HashMap, HashSet};
use std::net::SocketAddr;
use std::time::Duration;

use oracle::calls::{advance, Answer};
use oracle::lives::{self, NetcodeServer};

use crate::addresses::{three_words, Wire};
use crate::ours::{Ours, BODY_WORDS, ENTRIES, ENTRY_BYTES, PLACE_WORDS};
use crate::poke::{RECEIVED, WINDOW};

pub struct Shadow {
    pub slots: Vec<u64>,
    pub pending: Vec<u64>,
    pub entries: Vec<u8>,
    n: usize,
    m: usize,
    places: HashMap<SocketAddr, usize>,
    /// The Rust's pending clients past our places, where it was filled and ours have fewer: both are full.
    crowd: HashSet<SocketAddr>,
}

impl Shadow {
    /// Of tables as set-up leaves them.
    pub fn new(ours: &Ours) -> Self {
        let mut shadow = Self {
            slots: ours.slots.clone(),
            pending: ours.pending.clone(),
            entries: ours.entries.clone(),
            n: ours.slots.len() / PLACE_WORDS,
            m: ours.pending.len() / PLACE_WORDS,
            places: HashMap::new(),
            crowd: HashSet::new(),
        };
        shadow.slots[..shadow.n].fill(0);
        shadow.pending[..shadow.m].fill(0);
        shadow.entries[..ENTRIES].fill(0);
        shadow
    }

    pub fn follow(&mut self, server: &NetcodeServer) {
        self.follow_slots(server);
        self.follow_pending(server);
        self.follow_entries(server);
    }

    fn follow_slots(&mut self, server: &NetcodeServer) {
        let n = self.n;
        for i in 0..n {
            let at = 5 * n + BODY_WORDS * i;
            let body = &mut self.slots[at..at + BODY_WORDS];
            match lives::slot_into(server, i, body) {
                Some((id, address)) => used(&mut self.slots, n, i, id, address),
                None => self.slots[i] = 0,
            }
        }
    }

    fn follow_pending(&mut self, server: &NetcodeServer) {
        let pending = &mut self.pending;
        self.places.retain(|address, i| {
            let stays = lives::is_pending(server, *address);
            if !stays {
                pending[*i] = 0;
            }
            stays
        });
        self.crowd
            .retain(|address| lives::is_pending(server, *address));
        self.place_newcomers(server);
        let m = self.m;
        for (address, i) in &self.places {
            let at = 5 * m + BODY_WORDS * i;
            let body = &mut self.pending[at..at + BODY_WORDS];
            if let Some(id) = lives::pending_into(server, *address, body) {
                used(&mut self.pending, m, *i, id, *address);
            }
        }
    }

    /// Several come at once only where both sides are altered, and then in the order of their addresses.
    fn place_newcomers(&mut self, server: &NetcodeServer) {
        let is_new = |address: &SocketAddr| {
            !self.places.contains_key(address) && !self.crowd.contains(address)
        };
        let mut newcomers: Vec<_> = lives::pending_addresses(server).filter(is_new).collect();
        newcomers.sort();
        for address in newcomers {
            match self.pending[..self.m].iter().position(|mark| *mark == 0) {
                Some(i) => {
                    self.pending[i] = 1;
                    self.places.insert(address, i);
                }
                None => {
                    self.crowd.insert(address);
                }
            }
        }
    }

    fn follow_entries(&mut self, server: &NetcodeServer) {
        for (i, entry) in lives::entries(server).enumerate() {
            let Some((time, address, mac)) = entry else {
                self.entries[i] = 0;
                continue;
            };
            self.entries[i] = 1;
            let at = ENTRIES + (ENTRY_BYTES - 1) * i;
            let body = &mut self.entries[at..at + ENTRY_BYTES - 1];
            let Wire { kind, port, ip } = address.into();
            body[..8].copy_from_slice(&time.as_secs().to_le_bytes());
            body[8..12].copy_from_slice(&time.subsec_nanos().to_le_bytes());
            body[12] = kind;
            body[13..29].copy_from_slice(&ip);
            body[29..31].copy_from_slice(&port.to_le_bytes());
            body[31..].copy_from_slice(&mac);
        }
    }

    pub fn mark_slot(&mut self, slot: usize, mark: u64) {
        if slot < self.n && self.slots[slot] != 0 {
            self.slots[slot] = mark;
        }
    }

    /// A slot whose client takes its leave: its packet was accepted before the slot was emptied, which the Rust no longer shows.
    pub fn part(
        &mut self,
        address: SocketAddr,
        sequence: u64,
        now: Duration,
    ) -> Result<(), String> {
        let n = self.n;
        let words = three_words(address);
        let is_there = |i: &usize| {
            let at = 2 * n + 3 * i;
            self.slots[*i] != 0 && self.slots[at..at + 3] == words
        };
        let slot = (0..n)
            .find(is_there)
            .ok_or("a client parts that has no slot")?;
        let at = 5 * n + BODY_WORDS * slot;
        let body = &mut self.slots[at..at + BODY_WORDS];
        body[RECEIVED] = now.as_secs();
        body[RECEIVED + 1] = u64::from(now.subsec_nanos());
        let window = body[WINDOW..].try_into().expect("257 words");
        match advance(&window, sequence) {
            Answer::Is(window) => body[WINDOW..].copy_from_slice(&window),
            Answer::Panicked { .. } => return Err("the Rust's window panics in the domain".into()),
        }
        Ok(())
    }

    /// Ours with these tables, after both sides were altered alike.
    pub fn hand_over(&self, ours: &mut Ours) {
        ours.slots.copy_from_slice(&self.slots);
        ours.entries.copy_from_slice(&self.entries);
        for i in 0..self.m {
            self.hand_over_pending(ours, i);
        }
    }

    fn hand_over_pending(&self, ours: &mut Ours, i: usize) {
        ours.pending[i] = self.pending[i];
        if self.pending[i] != 0 {
            for (at, len) in self.columns(i) {
                ours.pending[at..at + len].copy_from_slice(&self.pending[at..at + len]);
            }
        }
    }

    /// Id, address and body of a pending place: start and length of each.
    fn columns(&self, i: usize) -> [(usize, usize); 3] {
        let m = self.m;
        [
            (m + i, 1),
            (2 * m + 3 * i, 3),
            (5 * m + BODY_WORDS * i, BODY_WORDS),
        ]
    }

    /// The first word in which a table of ours is another one. Of empty pending places only the mark is looked at, unless it is to be
    /// thorough.
    pub fn difference(&self, ours: &Ours, thorough: bool) -> Result<(), String> {
        same("slots", &self.slots, &ours.slots)?;
        same("token entries", &self.entries, &ours.entries)?;
        same(
            "pending marks",
            &self.pending[..self.m],
            &ours.pending[..self.m],
        )?;
        if thorough {
            return same("pending", &self.pending, &ours.pending);
        }
        for i in (0..self.m).filter(|i| self.pending[*i] != 0) {
            for (at, len) in self.columns(i) {
                let name = format!("pending place {i}, from word {at}");
                same(
                    &name,
                    &self.pending[at..at + len],
                    &ours.pending[at..at + len],
                )?;
            }
        }
        Ok(())
    }
}

/// A place that was used already keeps its mark, whatever it is.
fn used(table: &mut [u64], n: usize, i: usize, id: u64, address: SocketAddr) {
    if table[i] == 0 {
        table[i] = 1;
    }
    table[n + i] = id;
    table[2 * n + 3 * i..2 * n + 3 * i + 3].copy_from_slice(&three_words(address));
}

fn same<T: PartialEq + std::fmt::Debug>(name: &str, rust: &[T], ours: &[T]) -> Result<(), String> {
    if rust == ours {
        return Ok(());
    }
    let at = rust.iter().zip(ours).position(|(rust, ours)| rust != ours);
    let at = at.unwrap_or(rust.len().min(ours.len()));
    Err(format!(
        "{name}: at {at} the Rust has {:?}, ours {:?}",
        rust.get(at),
        ours.get(at)
    ))
}
