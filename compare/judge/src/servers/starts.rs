//! Set-up: tables of some length, public addresses, a configuration.

use std::fmt;

use ours::tables::{ENTRY_BYTES, PLACE_WORDS};

use super::bits;
use crate::tables::{address_text, socket, Address, Time};

#[derive(Debug, Clone, PartialEq, Eq)]
pub struct Start {
    /// Words of slots and of pending, bytes of entries.
    pub slots: usize,
    pub pending: usize,
    pub entries: usize,
    /// Malformed ones too.
    pub public: Vec<Address>,
    /// Words in the list that make no whole address.
    pub over: usize,
    pub limit: u64,
    pub clock: Time,
    pub secure: bool,
    pub protocol: u64,
}

/// Why document 01 refuses a set-up, in its order.
#[derive(Debug, Clone, Copy, PartialEq, Eq, PartialOrd, Ord)]
pub enum Lack {
    NoSlots,
    ManySlots,
    PartSlots,
    NoPending,
    ManyPending,
    PartPending,
    NoEntries,
    ManyEntries,
    PartEntries,
    PartAddress,
    OverLimit,
    Malformed,
    ClockEnd,
}

impl Lack {
    pub fn number(self) -> u8 {
        match self {
            Lack::Malformed => 19,
            Lack::ClockEnd => 20,
            _ => 23,
        }
    }
}

impl Start {
    /// A server as the Rust has it: as many slots as its limit, 4,096 pending clients, 2,048 entries.
    pub fn whole(limit: usize) -> Self {
        Self {
            slots: PLACE_WORDS * limit,
            pending: PLACE_WORDS * 4096,
            entries: ENTRY_BYTES * 2048,
            public: Vec::new(),
            over: 0,
            limit: limit as u64,
            clock: Time::ZERO,
            secure: false,
            protocol: 0,
        }
    }

    /// One place of each, and a limit of 1.
    pub fn small() -> Self {
        Self {
            pending: PLACE_WORDS,
            entries: ENTRY_BYTES,
            ..Self::whole(1)
        }
    }

    /// All that is wrong with it.
    pub fn lacks(&self) -> Vec<Lack> {
        let tables = [
            (self.slots, PLACE_WORDS, 1024),
            (self.pending, PLACE_WORDS, 4096),
            (self.entries, ENTRY_BYTES, 2048),
        ];
        let names = [
            [Lack::NoSlots, Lack::ManySlots, Lack::PartSlots],
            [Lack::NoPending, Lack::ManyPending, Lack::PartPending],
            [Lack::NoEntries, Lack::ManyEntries, Lack::PartEntries],
        ];
        let mut lacks = Vec::new();
        for ((len, place, most), [none, many, part]) in tables.into_iter().zip(names) {
            match (len / place, len % place) {
                (_, 1..) => lacks.push(part),
                (0, 0) => lacks.push(none),
                (places, 0) if places > most => lacks.push(many),
                _ => {}
            }
        }
        let over_limit = self.limit > (self.slots / PLACE_WORDS) as u64;
        let malformed = self.public.iter().any(|address| socket(address).is_none());
        let past_the_end = Time::of_whole(self.clock.whole()).is_none();
        lacks.extend((self.over > 0).then_some(Lack::PartAddress));
        lacks.extend(over_limit.then_some(Lack::OverLimit));
        lacks.extend(malformed.then_some(Lack::Malformed));
        lacks.extend(past_the_end.then_some(Lack::ClockEnd));
        lacks
    }

    /// Whether its tables are as long as the Rust's.
    pub fn is_whole(&self) -> bool {
        let words = self.limit.checked_mul(PLACE_WORDS as u64);
        words == Some(self.slots as u64)
            && self.pending == PLACE_WORDS * 4096
            && self.entries == ENTRY_BYTES * 2048
    }

    pub fn size(&self) -> usize {
        let lengths = self.slots + self.pending + self.entries + self.public.len() + self.over;
        let words = [self.clock.secs, self.clock.nanos, self.limit, self.protocol];
        100 * lengths + bits(&words) + usize::from(self.secure)
    }
}

impl fmt::Display for Start {
    fn fmt(&self, f: &mut fmt::Formatter<'_>) -> fmt::Result {
        let table = |len: usize, place: usize| match len % place {
            0 => format!("{}", len / place),
            over => format!("{} and {over}/{place}", len / place),
        };
        let each: Vec<String> = self.public.iter().map(address_text).collect();
        write!(f, " slots {}", table(self.slots, PLACE_WORDS))?;
        write!(f, " pending {}", table(self.pending, PLACE_WORDS))?;
        write!(f, " entries {}", table(self.entries, ENTRY_BYTES))?;
        write!(f, " public [{}] and {}/3", each.join(" "), self.over)?;
        write!(f, " limit {} clock {}", self.limit, self.clock)?;
        write!(f, " secure {} protocol {:x}", self.secure, self.protocol)
    }
}
