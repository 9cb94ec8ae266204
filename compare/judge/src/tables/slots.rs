//! A table of connections and what is looked for in it.

use std::fmt;

use super::entries::few_addresses;
use super::shrink::simpler_addresses;
use super::{address_text, four, socket, words, Address, Place, Sparse};
use crate::case::Call;
use crate::rng::Rng;
use crate::shrink::numbers;

/// A place: its mark, and what an emptied place keeps.
#[derive(Debug, Clone, Copy, PartialEq, Eq)]
pub struct Slot {
    pub mark: u64,
    pub id: u64,
    pub address: Address,
}

#[derive(Debug, Clone, Copy, PartialEq, Eq)]
pub enum Wanted {
    Address(Address),
    Id(u64),
    Free,
    Count,
}

#[derive(Debug, Clone, PartialEq, Eq)]
pub struct Slots {
    pub table: Sparse<Slot>,
    pub wanted: Wanted,
}

impl Slots {
    pub fn call(&self) -> Call {
        match self.wanted {
            Wanted::Address(_) => Call::ByAddress,
            Wanted::Id(_) => Call::ById,
            Wanted::Free => Call::Free,
            Wanted::Count => Call::Count,
        }
    }
}

/// Stands in the bodies, which no search may look at.
const BODY: u64 = 0xA5A5_A5A5_A5A5_A5A5;

/// All marks, all ids, all addresses, then all bodies.
pub fn laid_out(places: &[Slot]) -> Vec<u64> {
    let marks = places.iter().map(|place| place.mark);
    let ids = places.iter().map(|place| place.id);
    let addresses = places.iter().flat_map(|place| words(&place.address));
    let mut table: Vec<u64> = marks.chain(ids).chain(addresses).collect();
    table.resize(ours::tables::PLACE_WORDS * places.len(), BODY);
    table
}

/// The Rust's slots; none where a used place has a malformed address.
pub fn clients(places: &[Slot]) -> Option<Vec<Option<oracle::tables::Client>>> {
    let client = |place: &Slot| match place.mark {
        0 => Some(None),
        _ => Some(Some((place.id, socket(&place.address)?))),
    };
    places.iter().map(client).collect()
}

impl Place for Slot {
    const EMPTY: Self = Self {
        mark: 0,
        id: 0,
        address: Address {
            kind: 4,
            bytes: [0; 16],
            port: 0,
        },
    };

    /// The seed's low bits say how many places are used, and how alike they are.
    fn drawn(seed: u64, at: usize) -> Self {
        let mut rng = Rng::new(seed.wrapping_add((at as u64) << 32));
        let free = match seed & 3 {
            0 => false,
            1 => rng.one_in(3),
            2 => !rng.one_in(3),
            _ => true,
        };
        let alike = seed & 4 == 0;
        let [high, low] = (at as u16).to_be_bytes();
        Self {
            mark: if free { 0 } else { used_mark(&mut rng) },
            id: if alike { few_ids(&mut rng) } else { rng.next() },
            address: if alike {
                few_addresses(&mut rng)
            } else {
                four([10, 0, high, low], 5000)
            },
        }
    }

    fn simpler(&self) -> Vec<Self> {
        let marks = numbers(self.mark).map(|mark| Self { mark, ..*self });
        let ids = numbers(self.id).map(|id| Self { id, ..*self });
        let addresses = simpler_addresses(&self.address).into_iter();
        let addresses = addresses.map(|address| Self { address, ..*self });
        marks.chain(ids).chain(addresses).collect()
    }
}

/// Mostly 1, as ours writes it; any other but 0 is used as well, also one with no low bits.
pub fn used_mark(rng: &mut Rng) -> u64 {
    match rng.below(12) {
        0 => 2,
        1 => 255,
        2 => 1 << rng.below(64),
        3 => u64::MAX,
        _ => 1,
    }
}

/// Out of few, which differ at either end.
pub fn few_ids(rng: &mut Rng) -> u64 {
    rng.pick(&[0, 1, 2, 3, 1 << 32, 1 << 63, u64::MAX, u64::MAX - 1])
}

impl fmt::Display for Slot {
    fn fmt(&self, f: &mut fmt::Formatter<'_>) -> fmt::Result {
        if *self == Self::EMPTY {
            return write!(f, "empty");
        }
        let Self { mark, id, address } = self;
        write!(f, "mark {mark:x} id {id:x} at {}", address_text(address))
    }
}

impl fmt::Display for Slots {
    fn fmt(&self, f: &mut fmt::Formatter<'_>) -> fmt::Result {
        write!(f, " in {}", self.table)?;
        match self.wanted {
            Wanted::Address(address) => write!(f, "; wanted: {}", address_text(&address)),
            Wanted::Id(id) => write!(f, "; wanted: {id:x}"),
            Wanted::Free | Wanted::Count => Ok(()),
        }
    }
}
