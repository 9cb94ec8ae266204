//! Searches that walk a whole table: 1,024 used slots, the last one wanted, and 2,048 used token entries
//! none of which is the token's, so that each call writes the oldest of them.

use std::hint::black_box;
use std::net::SocketAddr;
use std::time::Duration;

use oracle::raw::{Entries, Slots};
use ours::tables::{self, Address};

use crate::rounds::{compare, Row};

const SLOTS: usize = 1024;
const SEARCHES: usize = 10_000;
const ENTRIES: usize = 2048;
const ADDS: usize = 4096;
const PORT: u16 = 5000;

fn four(place: usize) -> [u8; 4] {
    let [high, low] = (place as u16).to_be_bytes();
    [10, 0, high, low]
}

fn theirs(place: usize) -> SocketAddr {
    (four(place), PORT).into()
}

fn mine(place: usize) -> Address {
    let mut bytes = [0; 16];
    bytes[..4].copy_from_slice(&four(place));
    Address {
        kind: 4,
        bytes,
        port: PORT,
    }
}

/// The same clients on both sides: the id is the place.
fn slots() -> (Slots, Vec<u64>) {
    let slots = Slots::new((0..SLOTS).map(|place| Some((place as u64, theirs(place)))));
    let mut table = vec![0; tables::PLACE_WORDS * SLOTS];
    table[..SLOTS].fill(1);
    for place in 0..SLOTS {
        table[SLOTS + place] = place as u64;
        let at = 2 * SLOTS + tables::ADDRESS_WORDS * place;
        table[at] = 4 << 16 | u64::from(PORT);
        table[at + 1] = u32::from_le_bytes(four(place)).into();
    }
    (slots, table)
}

pub fn by_address() -> Row {
    let (mut slots, table) = slots();
    let (addr, address) = (theirs(SLOTS - 1), mine(SLOTS - 1));
    let rust = || {
        for _ in 0..SEARCHES {
            let found = black_box(&mut slots).by_address(black_box(addr));
            assert_eq!(found, Some(SLOTS - 1));
        }
    };
    let ours = || {
        for _ in 0..SEARCHES {
            let mut place = [0];
            let found = tables::find_by_address(black_box(&table), black_box(&address), &mut place);
            assert_eq!((found, place), (1, [SLOTS as u64 - 1]));
        }
    };
    let name = format!("find by address, {SLOTS} used slots, the last");
    compare(&name, SEARCHES, rust, ours)
}

pub fn by_id() -> Row {
    let (slots, table) = slots();
    let id = SLOTS as u64 - 1;
    let rust = || {
        for _ in 0..SEARCHES {
            let found = black_box(&slots).by_id(black_box(id));
            assert_eq!(found, Some(SLOTS - 1));
        }
    };
    let ours = || {
        for _ in 0..SEARCHES {
            let mut place = [0];
            let found = tables::find_by_id(black_box(&table), black_box(id), &mut place);
            assert_eq!((found, place), (1, [id]));
        }
    };
    let name = format!("find by id, {SLOTS} used slots, the last");
    compare(&name, SEARCHES, rust, ours)
}

/// No two tokens alike.
fn mac(number: u64) -> [u8; 16] {
    let mut mac = [7; 16];
    mac[..8].copy_from_slice(&number.to_le_bytes());
    mac
}

/// Each token comes a second after the one before it, so that the oldest entry is another each time.
pub fn find_or_add() -> Row {
    let (addr, address) = (theirs(0), mine(0));
    let entry = |number: u64| (Duration::from_secs(number), addr, mac(number));
    let mut entries = Entries::new((0..ENTRIES).map(|place| Some(entry(place as u64))));
    let mut table = vec![0; tables::ENTRY_BYTES * ENTRIES];
    let mut next = [ENTRIES as u64; 2];
    let [their_next, our_next] = &mut next;
    for number in 0..ENTRIES as u64 {
        tables::find_or_add_entry(&mut table, [number, 0], &address, &mac(number));
    }
    let rust = || {
        for _ in 0..ADDS {
            assert!(black_box(&mut entries).find_or_add(black_box(entry(*their_next))));
            *their_next += 1;
        }
    };
    let ours = || {
        for _ in 0..ADDS {
            let (time, mac) = ([*our_next, 0], mac(*our_next));
            let table = black_box(&mut table[..]);
            let added = tables::find_or_add_entry(table, time, black_box(&address), &mac);
            assert_eq!(added, 1);
            *our_next += 1;
        }
    };
    let name = format!("token entry, {ENTRIES} used, no match");
    compare(&name, ADDS, rust, ours)
}
