//! Token entries and one use of a token.

use std::fmt;

use super::shrink::{simpler_addresses, simpler_times};
use super::{address_text, four, six, Address, Place, Sparse, Time, SECOND};
use crate::rng::Rng;
use crate::shrink::{numbers, zeroed};
use crate::text::hex;

/// As many as the Rust has.
pub const ENTRIES: usize = 2048;

#[derive(Debug, Clone, Copy, PartialEq, Eq)]
pub struct Entry {
    pub time: Time,
    pub address: Address,
    pub mac: [u8; 16],
}

/// A place: its mark, and a body that an emptied place keeps.
#[derive(Debug, Clone, Copy, PartialEq, Eq)]
pub struct Mark {
    pub mark: u8,
    pub entry: Entry,
}

#[derive(Debug, Clone, PartialEq, Eq)]
pub struct Entries {
    pub table: Sparse<Mark>,
    pub used: Entry,
}

impl Entry {
    /// Time 12, address 19, last private bytes 16; a body has four bytes for nanoseconds.
    pub fn body(&self) -> [u8; 47] {
        let mut body = [0; 47];
        body[..8].copy_from_slice(&self.time.secs.to_le_bytes());
        body[8..12].copy_from_slice(&(self.time.nanos as u32).to_le_bytes());
        body[12] = self.address.kind;
        body[13..29].copy_from_slice(&self.address.bytes);
        body[29..31].copy_from_slice(&self.address.port.to_le_bytes());
        body[31..].copy_from_slice(&self.mac);
        body
    }
}

/// All marks, then all bodies.
pub fn bytes(places: &[Mark]) -> Vec<u8> {
    let marks = places.iter().map(|place| place.mark);
    let bodies = places.iter().flat_map(|place| place.entry.body());
    marks.chain(bodies).collect()
}

/// An entry written at its place.
pub fn write(table: &mut [u8], at: usize, entry: &Entry) {
    let places = table.len() / 48;
    table[at] = 1;
    table[places + 47 * at..][..47].copy_from_slice(&entry.body());
}

const NOBODY: Address = Address {
    kind: 4,
    bytes: [0; 16],
    port: 0,
};

impl Place for Mark {
    const EMPTY: Self = Self {
        mark: 0,
        entry: Entry {
            time: Time::ZERO,
            address: NOBODY,
            mac: [0; 16],
        },
    };

    /// The seed's low bits say how many places are empty, and how alike times and tokens are.
    fn drawn(seed: u64, at: usize) -> Self {
        let mut rng = Rng::new(seed.wrapping_add((at as u64) << 32));
        let mark = match seed & 3 {
            0 if rng.one_in(4) => 0,
            1 if rng.one_in(500) => 0,
            _ => used_mark(&mut rng),
        };
        let entry = Entry {
            time: drawn_time(&mut rng, seed >> 2 & 3),
            address: few_addresses(&mut rng),
            mac: if seed & 16 == 0 {
                few_macs(&mut rng)
            } else {
                rng.array()
            },
        };
        Self { mark, entry }
    }

    fn simpler(&self) -> Vec<Self> {
        let with_mark = |mark| Self {
            mark: mark as u8,
            ..*self
        };
        let with_entry = |entry| Self { entry, ..*self };
        let mut tries: Vec<Self> = numbers(self.mark.into()).map(with_mark).collect();
        tries.extend(simpler(&self.entry).into_iter().map(with_entry));
        tries
    }
}

pub fn simpler(entry: &Entry) -> Vec<Entry> {
    let times = simpler_times(entry.time).into_iter();
    let mut tries: Vec<Entry> = times.map(|time| Entry { time, ..*entry }).collect();
    let addresses = simpler_addresses(&entry.address).into_iter();
    tries.extend(addresses.map(|address| Entry { address, ..*entry }));
    tries.extend(zeroed(&entry.mac).into_iter().map(|mac| Entry {
        mac: mac.try_into().expect("as many bytes"),
        ..*entry
    }));
    tries
}

/// Mostly 1, as ours writes it; any other but 0 is used as well.
pub fn used_mark(rng: &mut Rng) -> u8 {
    match rng.below(8) {
        0 => 2,
        1 => 255,
        2 => 1 + rng.below(255) as u8,
        _ => 1,
    }
}

/// A clock's time: of few values, of many, or late.
pub fn drawn_time(rng: &mut Rng, sort: u64) -> Time {
    let secs = match sort {
        0 => 5,
        1 => rng.next() % 4,
        2 => rng.number(),
        _ => u64::MAX - rng.next() % 3,
    };
    let nanos = match rng.below(4) {
        0 => 0,
        1 => SECOND - 1 - rng.next() % 3,
        2 => rng.next() % 3,
        _ => rng.next() % SECOND,
    };
    Time::new(secs, nanos)
}

/// Out of a dozen that differ in one thing each: kind, port, a byte at either end.
pub fn few_addresses(rng: &mut Rng) -> Address {
    const MAPPED: [u8; 16] = [0, 0, 0, 0, 0, 0, 0, 0, 0, 0, 255, 255, 127, 0, 0, 1];
    let ends = |first, last| {
        let mut bytes = [0; 16];
        (bytes[0], bytes[15]) = (first, last);
        bytes
    };
    match rng.below(12) {
        0 => four([127, 0, 0, 1], 5000),
        1 => four([127, 0, 0, 1], 5001),
        2 => four([127, 0, 0, 2], 5000),
        3 => four([1, 0, 0, 127], 5000),
        4 => six(four([127, 0, 0, 1], 0).bytes, 5000),
        5 => six(MAPPED, 5000),
        6 => six(ends(0, 1), 5000),
        7 => six(ends(0, 2), 5000),
        8 => six(ends(1, 1), 5000),
        9 => six(ends(1, 1), 5256),
        10 => four([0; 4], 0),
        _ => six([0; 16], 0),
    }
}

/// Out of few, which differ in a byte at either end.
pub fn few_macs(rng: &mut Rng) -> [u8; 16] {
    let mut mac = [7; 16];
    match rng.below(40) {
        0 => mac[0] ^= 1,
        1 => mac[15] ^= 1,
        2 => mac[8] ^= 1,
        3 => {}
        _ => rng.fill(&mut mac),
    }
    mac
}

impl fmt::Display for Entry {
    fn fmt(&self, f: &mut fmt::Formatter<'_>) -> fmt::Result {
        let (address, mac) = (address_text(&self.address), hex(&self.mac));
        write!(f, "time {} from {address} mac {mac}", self.time)
    }
}

impl fmt::Display for Mark {
    fn fmt(&self, f: &mut fmt::Formatter<'_>) -> fmt::Result {
        match self {
            place if *place == Self::EMPTY => write!(f, "empty"),
            Self { mark, entry } => write!(f, "mark {mark} {entry}"),
        }
    }
}

impl fmt::Display for Entries {
    fn fmt(&self, f: &mut fmt::Formatter<'_>) -> fmt::Result {
        write!(f, " of {}; used: {}", self.table, self.used)
    }
}
