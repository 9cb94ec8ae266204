//! Tables brought to states that no call would leave, on both sides alike.

use std::net::SocketAddr;
use std::time::Duration;

use oracle::lives::{self, NetcodeServer, Row};

/// Where in a connection's words.
pub const CONFIRMED: usize = 0;
pub const RECEIVED: usize = 9;
pub const SENT: usize = 11;
pub const TIMEOUT: usize = 13;
pub const SEQUENCE: usize = 14;
pub const EXPIRY: usize = 15;
pub const WINDOW: usize = 48;

#[derive(Debug, Clone, PartialEq, Eq)]
pub enum Poke {
    Counters([u64; 2]),
    Clock {
        secs: u64,
        nanos: u32,
    },
    /// Words of a slot's body.
    Slot {
        slot: usize,
        words: Vec<(usize, u64)>,
    },
    SlotId {
        slot: usize,
        id: u64,
    },
    SlotAddress {
        slot: usize,
        to: SocketAddr,
    },
    /// One slot's record in another too.
    SlotCopy {
        from: usize,
        to: usize,
    },
    SlotEmpty {
        slot: usize,
    },
    /// Another mark than 1 for a used slot, which the Rust does not have.
    Mark {
        slot: usize,
        mark: u64,
    },
    /// Words of a pending body.
    Pending {
        at: SocketAddr,
        words: Vec<(usize, u64)>,
    },
    /// Made-up pending clients, until there are so many.
    PendingFill {
        count: usize,
        expiry: u64,
    },
    /// One token entry.
    Entry {
        place: usize,
        secs: u64,
        from: SocketAddr,
        mac: [u8; 16],
    },
    /// Every token entry used, with times of `secs` and a few more, the lowest at `lowest` and, if it is another, at `again`.
    Entries {
        secs: u64,
        lowest: usize,
        again: usize,
    },
}

impl Poke {
    pub fn apply(&self, server: &mut NetcodeServer) {
        match self {
            Self::Counters(counters) => lives::put_counters(server, *counters),
            Self::Clock { secs, nanos } => lives::put_clock(server, Duration::new(*secs, *nanos)),
            Self::Slot { .. }
            | Self::SlotId { .. }
            | Self::SlotAddress { .. }
            | Self::SlotCopy { .. }
            | Self::SlotEmpty { .. } => self.apply_to_slot(server),
            Self::Mark { .. } => {}
            Self::Pending { at, words } => {
                if let Some(mut row) = lives::pending_at(server, *at) {
                    put(&mut row.2, words);
                    lives::put_pending(server, &row);
                }
            }
            Self::PendingFill { count, expiry } => fill(server, *count, *expiry),
            Self::Entry {
                place,
                secs,
                from,
                mac,
            } => {
                let entry = (Duration::new(*secs, 5), *from, *mac);
                lives::put_entry(server, *place, Some(entry));
            }
            Self::Entries {
                secs,
                lowest,
                again,
            } => fill_entries(server, *secs, *lowest, *again),
        }
    }

    fn apply_to_slot(&self, server: &mut NetcodeServer) {
        match self {
            Self::Slot { slot, words } => change(server, *slot, |row| put(&mut row.2, words)),
            Self::SlotId { slot, id } => change(server, *slot, |row| row.0 = *id),
            Self::SlotAddress { slot, to } => change(server, *slot, |row| row.1 = *to),
            Self::SlotCopy { from, to } => {
                if let Some(row) = lives::slot(server, *from) {
                    if *to < lives::slots(server) {
                        lives::put_slot(server, *to, Some(&row));
                    }
                }
            }
            Self::SlotEmpty { slot } if *slot < lives::slots(server) => {
                lives::put_slot(server, *slot, None);
            }
            _ => {}
        }
    }
}

fn put(words: &mut [u64; 305], changes: &[(usize, u64)]) {
    for (at, value) in changes {
        words[*at] = *value;
    }
}

fn change(server: &mut NetcodeServer, slot: usize, work: impl FnOnce(&mut Row)) {
    if let Some(mut row) = lives::slot(server, slot) {
        work(&mut row);
        lives::put_slot(server, slot, Some(&row));
    }
}

/// The address of made-up pending client `i`.
fn stranger(i: usize) -> SocketAddr {
    ([10, 99, (i / 256) as u8, i as u8], 9).into()
}

fn fill(server: &mut NetcodeServer, count: usize, expiry: u64) {
    let mut words = [u64::MAX; 305];
    words[..WINDOW + 1].fill(3);
    words[EXPIRY] = expiry;
    for i in 0..count {
        if lives::pending_count(server) >= count {
            return;
        }
        lives::put_pending(server, &(i as u64, stranger(i), words));
    }
}

fn fill_entries(server: &mut NetcodeServer, secs: u64, lowest: usize, again: usize) {
    for place in 0..2048 {
        let early = place == lowest || place == again;
        let secs = if early {
            secs
        } else {
            secs + 1 + place as u64 % 3
        };
        let mut mac = [0xEE; 16];
        mac[..8].copy_from_slice(&(place as u64).to_le_bytes());
        let entry = (Duration::new(secs, 7), stranger(place), mac);
        lives::put_entry(server, place, Some(entry));
    }
}
