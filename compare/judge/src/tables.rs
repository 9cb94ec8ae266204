//! Cases of the server's tables and clock: what they are made of, the same for both sides.

pub mod alone;
mod draw;
mod edges;
mod entries;
mod hosts;
mod moments;
mod run;
mod shrink;
mod slots;
mod sparse;
mod time_edges;

use std::fmt;
use std::net::{IpAddr, SocketAddr};
use std::time::Duration;

pub use alone::malformed;
pub use entries::{bytes as entry_bytes, write as write_entry, Entries, Entry, Mark, ENTRIES};
pub use entries::{drawn_time, few_addresses};
pub use hosts::{list as address_list, Hosts};
pub use moments::{Moment, Told};
pub use ours::tables::Address;
pub use run::run;
pub use shrink::{fewer, simpler, simpler_addresses, simpler_times};
pub use slots::{clients as slot_clients, laid_out as slot_words, Slot, Slots, Wanted};
pub use slots::{few_ids, used_mark};
pub use sparse::{Fill, Place, Sparse};

use crate::text::hex;

/// Nanoseconds in a second; a time with so many is none that the Rust has.
pub const SECOND: u64 = 1_000_000_000;

/// The last time that the Rust has.
pub const LATEST: Time = Time::new(u64::MAX, SECOND - 1);

/// A time as its two words.
#[derive(Debug, Clone, Copy, PartialEq, Eq)]
pub struct Time {
    pub secs: u64,
    pub nanos: u64,
}

impl Time {
    pub const ZERO: Self = Self::new(0, 0);

    pub const fn new(secs: u64, nanos: u64) -> Self {
        Self { secs, nanos }
    }

    pub fn words(self) -> [u64; 2] {
        [self.secs, self.nanos]
    }

    pub fn whole(self) -> u128 {
        u128::from(self.secs) * u128::from(SECOND) + u128::from(self.nanos)
    }

    /// The time of so many nanoseconds, where its seconds fit.
    pub fn of_whole(nanos: u128) -> Option<Self> {
        let secs = u64::try_from(nanos / u128::from(SECOND)).ok()?;
        Some(Self::new(secs, (nanos % u128::from(SECOND)) as u64))
    }

    pub fn is_proper(self) -> bool {
        self.nanos < SECOND
    }

    /// The Rust's, of as many whole nanoseconds; none where they pass its range.
    pub fn duration(self) -> Option<Duration> {
        let time = Self::of_whole(self.whole())?;
        Some(Duration::new(time.secs, time.nanos as u32))
    }
}

impl From<Duration> for Time {
    fn from(time: Duration) -> Self {
        Self::new(time.as_secs(), time.subsec_nanos().into())
    }
}

impl fmt::Display for Time {
    fn fmt(&self, f: &mut fmt::Formatter<'_>) -> fmt::Result {
        write!(f, "{}s+{}ns", self.secs, self.nanos)
    }
}

pub fn four(bytes: [u8; 4], port: u16) -> Address {
    let mut all = [0; 16];
    all[..4].copy_from_slice(&bytes);
    Address {
        kind: 4,
        bytes: all,
        port,
    }
}

pub fn six(bytes: [u8; 16], port: u16) -> Address {
    Address {
        kind: 6,
        bytes,
        port,
    }
}

/// The Rust's; none where the address is malformed.
pub fn socket(address: &Address) -> Option<SocketAddr> {
    oracle::tables::address(address.kind, &address.bytes, address.port)
}

/// Ours, of the Rust's.
pub fn given(socket: SocketAddr) -> Address {
    match socket.ip() {
        IpAddr::V4(ip) => four(ip.octets(), socket.port()),
        IpAddr::V6(ip) => six(ip.octets(), socket.port()),
    }
}

/// As a table or a list of ours has it, laid out here by hand.
pub fn words(address: &Address) -> [u64; 3] {
    let half = |at: usize| {
        let half = address.bytes[at..at + 8].try_into().expect("eight bytes");
        u64::from_le_bytes(half)
    };
    let first = u64::from(address.kind) << 16 | u64::from(address.port);
    [first, half(0), half(8)]
}

pub fn address_text(address: &Address) -> String {
    let used = if address.kind == 4 && address.bytes[4..] == [0; 12] {
        &address.bytes[..4]
    } else {
        &address.bytes[..]
    };
    format!("{}/{}/{}", address.kind, hex(used), address.port)
}

#[cfg(test)]
mod tests;
