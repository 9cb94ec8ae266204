//! Slots and what is asked of them; public addresses.

use std::fmt;

use super::layout::{body_of, columns, RECEIVED, USER_DATA};
use super::{stage_text, Fit};
use crate::case::Call;
use crate::rng::Rng;
use crate::shrink::numbers;
use crate::tables::{address_text, drawn_time, few_addresses, few_ids, four, simpler_addresses};
use crate::tables::{simpler_times, used_mark, Address, Place, Sparse, Time};

/// A slot: its mark, and what an emptied one keeps. A number stands for the user data.
#[derive(Debug, Clone, Copy, PartialEq, Eq)]
pub struct Seat {
    pub mark: u64,
    pub id: u64,
    pub address: Address,
    pub received: Time,
    pub user: u64,
}

/// A list has room for so many.
#[derive(Debug, Clone, Copy, PartialEq, Eq)]
pub enum What {
    Count,
    Ids(usize),
    Slots(usize),
    Is(u64),
    Addr(u64),
    Since(u64),
    User(u64),
}

#[derive(Debug, Clone, PartialEq, Eq)]
pub struct Query {
    pub table: Sparse<Seat>,
    pub now: Time,
    pub what: What,
    pub stage: u8,
    pub fit: Fit,
}

#[derive(Debug, Clone, PartialEq, Eq)]
pub struct Public {
    pub public: Vec<Address>,
    /// In words.
    pub room: usize,
    pub stage: u8,
    pub fit: Fit,
}

impl What {
    pub fn call(self) -> Call {
        match self {
            What::Count => Call::Connected,
            What::Ids(_) => Call::ClientsId,
            What::Slots(_) => Call::ClientsSlot,
            What::Is(_) => Call::IsConnected,
            What::Addr(_) => Call::ClientAddr,
            What::Since(_) => Call::Heard,
            What::User(_) => Call::UserData,
        }
    }

    pub fn id(self) -> Option<u64> {
        match self {
            What::Is(id) | What::Addr(id) | What::Since(id) | What::User(id) => Some(id),
            What::Count | What::Ids(_) | What::Slots(_) => None,
        }
    }

    /// The same of another id.
    pub fn with_id(self, id: u64) -> Self {
        match self {
            What::Is(_) => What::Is(id),
            What::Addr(_) => What::Addr(id),
            What::Since(_) => What::Since(id),
            What::User(_) => What::User(id),
            other => other,
        }
    }
}

/// All zeros for 0, else bytes that are all drawn by the number.
pub fn user_bytes(user: u64) -> [u8; 256] {
    match user {
        0 => [0; 256],
        user => Rng::new(user).array(),
    }
}

pub fn seat_words(places: &[Seat]) -> Vec<u64> {
    let n = places.len();
    let marks: Vec<u64> = places.iter().map(|place| place.mark).collect();
    let ids: Vec<u64> = places.iter().map(|place| place.id).collect();
    let addresses: Vec<Address> = places.iter().map(|place| place.address).collect();
    let mut table = columns(&marks, &ids, &addresses);
    for (at, place) in places.iter().enumerate() {
        let body = &mut table[body_of(n, at)..];
        body[RECEIVED..][..2].copy_from_slice(&place.received.words());
        let user = user_bytes(place.user);
        for (word, bytes) in body[USER_DATA..].iter_mut().zip(user.chunks_exact(8)) {
            *word = u64::from_le_bytes(bytes.try_into().expect("eight bytes"));
        }
    }
    table
}

impl Place for Seat {
    const EMPTY: Self = Self {
        mark: 0,
        id: 0,
        address: Address {
            kind: 4,
            bytes: [0; 16],
            port: 0,
        },
        received: Time::ZERO,
        user: 0,
    };

    /// The seed's low bits say how many slots are used, how alike they are, and when they were heard of.
    fn drawn(seed: u64, at: usize) -> Self {
        let mut rng = Rng::new(seed.wrapping_add((at as u64) << 32));
        let free = match seed & 3 {
            0 => false,
            1 => rng.one_in(3),
            2 => !rng.one_in(3),
            _ => true,
        };
        let mark = if free { 0 } else { used_mark(&mut rng) };
        let [high, low] = (at as u16).to_be_bytes();
        let (id, address) = if seed & 4 == 0 {
            (few_ids(&mut rng), few_addresses(&mut rng))
        } else {
            (rng.next(), four([10, 0, high, low], 5000))
        };
        Self {
            mark,
            id,
            address,
            received: drawn_time(&mut rng, seed >> 3 & 1),
            user: rng.next(),
        }
    }

    fn simpler(&self) -> Vec<Self> {
        let marks = numbers(self.mark).map(|mark| Self { mark, ..*self });
        let ids = numbers(self.id).map(|id| Self { id, ..*self });
        let users = numbers(self.user).map(|user| Self { user, ..*self });
        let mut tries: Vec<Self> = marks.chain(ids).chain(users).collect();
        let addresses = simpler_addresses(&self.address).into_iter();
        tries.extend(addresses.map(|address| Self { address, ..*self }));
        let times = simpler_times(self.received).into_iter();
        tries.extend(times.map(|received| Self { received, ..*self }));
        tries
    }
}

impl fmt::Display for Seat {
    fn fmt(&self, f: &mut fmt::Formatter<'_>) -> fmt::Result {
        if *self == Self::EMPTY {
            return write!(f, "empty");
        }
        write!(f, "mark {:x} id {:x}", self.mark, self.id)?;
        write!(f, " at {}", address_text(&self.address))?;
        write!(f, " received {} user {:x}", self.received, self.user)
    }
}

impl fmt::Display for Query {
    fn fmt(&self, f: &mut fmt::Formatter<'_>) -> fmt::Result {
        match self.what {
            What::Count => {}
            What::Ids(room) | What::Slots(room) => write!(f, " into {room}")?,
            What::Is(id) | What::Addr(id) | What::Since(id) | What::User(id) => {
                write!(f, " of {id:x}")?;
            }
        }
        write!(f, " at {} in {}", self.now, self.table)?;
        write!(f, "{}{}", stage_text(self.stage), self.fit)
    }
}

impl fmt::Display for Public {
    fn fmt(&self, f: &mut fmt::Formatter<'_>) -> fmt::Result {
        let each: Vec<String> = self.public.iter().map(address_text).collect();
        write!(f, " [{}] into {} words", each.join(" "), self.room)?;
        write!(f, "{}{}", stage_text(self.stage), self.fit)
    }
}
