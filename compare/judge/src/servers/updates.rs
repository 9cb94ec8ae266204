//! Pending clients and a clock that moves on; a limit and another one.

use std::fmt;

use super::layout::{body_of, columns, EXPIRY};
use super::{stage_text, Fit};
use crate::rng::Rng;
use crate::shrink::numbers;
use crate::tables::{four, six, used_mark, Address, Place, Sparse, Time};

/// A pending place: its mark, and an expiry that an emptied place keeps. Id and address go by the place,
/// since the Rust has no two pending clients at one address.
#[derive(Debug, Clone, Copy, PartialEq, Eq)]
pub struct Waiting {
    pub mark: u64,
    pub expiry: u64,
}

#[derive(Debug, Clone, PartialEq, Eq)]
pub struct Update {
    pub table: Sparse<Waiting>,
    pub clock: Time,
    pub step: Time,
    /// The sort of ask that is open.
    pub stage: u8,
    pub fit: Fit,
}

#[derive(Debug, Clone, Copy, PartialEq, Eq)]
pub struct Limit {
    pub before: u64,
    pub to: u64,
    pub stage: u8,
}

impl Update {
    /// No ask is open, and the table fits.
    pub fn plain(table: Sparse<Waiting>, clock: Time, step: Time) -> Self {
        Self {
            table,
            clock,
            step,
            stage: 0,
            fit: Fit::Fits,
        }
    }

    /// The clock after the step; none past its range.
    pub fn after(&self) -> Option<Time> {
        Time::of_whole(self.clock.whole() + self.step.whole())
    }
}

/// Of both kinds in turn.
pub fn place_address(at: usize) -> Address {
    let [high, low] = (at as u16).to_be_bytes();
    if at.is_multiple_of(2) {
        return four([10, 0, high, low], 5000);
    }
    let mut bytes = [0xFD; 16];
    (bytes[14], bytes[15]) = (high, low);
    six(bytes, 5000)
}

pub fn waiting_words(places: &[Waiting]) -> Vec<u64> {
    let n = places.len();
    let marks: Vec<u64> = places.iter().map(|place| place.mark).collect();
    let ids: Vec<u64> = (0..n as u64).map(|at| at + 70).collect();
    let addresses: Vec<Address> = (0..n).map(place_address).collect();
    let mut table = columns(&marks, &ids, &addresses);
    for (at, place) in places.iter().enumerate() {
        table[body_of(n, at) + EXPIRY] = place.expiry;
    }
    table
}

impl Place for Waiting {
    const EMPTY: Self = Self { mark: 0, expiry: 0 };

    /// The seed's low bits say how many places are used, and when they expire: around 100 s, or any time.
    fn drawn(seed: u64, at: usize) -> Self {
        let mut rng = Rng::new(seed.wrapping_add((at as u64) << 32));
        let free = match seed & 3 {
            0 => false,
            1 => rng.one_in(3),
            2 => !rng.one_in(3),
            _ => rng.one_in(50),
        };
        let expiry = match rng.below(8) {
            0 => 0,
            1 => u64::MAX,
            _ if seed & 4 == 0 => rng.near(100, 2),
            _ => rng.number(),
        };
        let mark = if free { 0 } else { used_mark(&mut rng) };
        Self { mark, expiry }
    }

    fn simpler(&self) -> Vec<Self> {
        let marks = numbers(self.mark).map(|mark| Self { mark, ..*self });
        let expiries = numbers(self.expiry).map(|expiry| Self { expiry, ..*self });
        marks.chain(expiries).collect()
    }
}

impl fmt::Display for Waiting {
    fn fmt(&self, f: &mut fmt::Formatter<'_>) -> fmt::Result {
        write!(f, "mark {:x} expiry {}", self.mark, self.expiry)
    }
}

impl fmt::Display for Update {
    fn fmt(&self, f: &mut fmt::Formatter<'_>) -> fmt::Result {
        let Self { clock, step, .. } = self;
        write!(f, " clock {clock} step {step} of {}", self.table)?;
        write!(f, "{}{}", stage_text(self.stage), self.fit)
    }
}

impl fmt::Display for Limit {
    fn fmt(&self, f: &mut fmt::Formatter<'_>) -> fmt::Result {
        let Self { before, to, stage } = self;
        write!(f, " from {before} to {to}{}", stage_text(*stage))
    }
}
