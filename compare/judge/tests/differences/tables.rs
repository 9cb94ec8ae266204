//! Tables and addresses.

use std::net::{SocketAddr, SocketAddrV6};
use std::panic::catch_unwind;
use std::time::Duration;

use oracle::tables::{Entries, Slots};
use oracle::{NetcodeServer, ServerAuthentication, ServerConfig};
use ours::tables::{self, Address, ENTRY_BYTES, PLACE_WORDS};

const NOBODY: Address = Address {
    kind: 4,
    bytes: [0; 16],
    port: 0,
};

/// A table of one place, marked so, with id 0 and the address 0.0.0.0:0.
fn one_slot(mark: u64) -> Vec<u64> {
    let mut table = vec![0; PLACE_WORDS];
    (table[0], table[2]) = (mark, 4 << 16);
    table
}

#[test]
fn row_35_a_malformed_address() {
    let mut long = NOBODY;
    long.bytes[4] = 1;
    for bad in [Address { kind: 5, ..NOBODY }, long] {
        let (mut place, mut words, mut entries) = ([9], [9; 3], [0; ENTRY_BYTES]);
        assert_eq!(tables::find_by_address(&one_slot(1), &bad, &mut place), 19);
        assert_eq!(tables::address(&bad, &mut words), 19);
        let added = tables::find_or_add_entry(&mut entries, [0, 0], &bad, &[0; 16]);
        assert_eq!(added, 19);
        assert_eq!((place, words, entries), ([9], [9; 3], [0; ENTRY_BYTES]));
        let first = u64::from(bad.kind) << 16;
        let low = u64::from_le_bytes(bad.bytes[..8].try_into().expect("eight bytes"));
        assert_eq!(tables::any_ours(&[first, low, 0], &[]), 19);
        assert_eq!(tables::any_ours(&[], &[first, low, 0]), 19);
    }
}

fn server(max_clients: usize) -> NetcodeServer {
    NetcodeServer::new(ServerConfig {
        current_time: Duration::ZERO,
        max_clients,
        protocol_id: 0,
        public_addresses: Vec::new(),
        authentication: ServerAuthentication::Unsecure,
    })
}

#[test]
fn row_36_no_slots_or_too_many() {
    assert_eq!(server(0).clients_slot(), []);
    assert_eq!(Slots::new([].into_iter()).take_free(), None);
    assert!(catch_unwind(|| server(1025)).is_err());
    for len in [0, 1, PLACE_WORDS - 1, PLACE_WORDS + 1, PLACE_WORDS * 4097] {
        let mut place = [9];
        assert_eq!(tables::find_free(&vec![0; len], &mut place), 23);
        assert_eq!(tables::find_by_id(&vec![0; len], 0, &mut place), 23);
        assert_eq!(place, [9]);
    }
    // Slots and pending clients are searched by the same calls, so that these take 4,096 places.
    let mut place = [9];
    let table = vec![0; PLACE_WORDS * 4096];
    assert_eq!(tables::find_free(&table, &mut place), 1);
}

#[test]
fn row_37_another_number_of_entries() {
    for len in [0, 1, ENTRY_BYTES - 1, ENTRY_BYTES + 1, ENTRY_BYTES * 2049] {
        let mut table = vec![0; len];
        assert_eq!(
            tables::find_or_add_entry(&mut table, [0, 0], &NOBODY, &[0; 16]),
            23
        );
        assert_eq!(table, vec![0; len]);
    }
    // One place alone: the second token takes it from the first, which may come again from elsewhere.
    let mut table = [0; ENTRY_BYTES];
    let elsewhere = Address { port: 1, ..NOBODY };
    let mut add = |address, mac| tables::find_or_add_entry(&mut table, [0, 0], address, &[mac; 16]);
    assert_eq!([add(&NOBODY, 1), add(&elsewhere, 1)], [1, 0]);
    assert_eq!([add(&NOBODY, 2), add(&elsewhere, 1)], [1, 1]);
    // The Rust has 2,048, and still knows the first.
    let mut entries = Entries::new(vec![None; 2048].into_iter());
    let mut add =
        |port: u16, mac| entries.find_or_add((Duration::ZERO, ([0; 4], port).into(), [mac; 16]));
    assert_eq!([add(0, 1), add(1, 1)], [true, false]);
    assert_eq!([add(0, 2), add(1, 1)], [true, false]);
}

#[test]
fn row_38_a_mark_that_is_neither_0_nor_1() {
    for mark in [2, 256, 1 << 63] {
        let (mut place, table) = ([9], one_slot(mark));
        assert_eq!(tables::find_by_id(&table, 0, &mut place), 1);
        assert_eq!(tables::find_free(&table, &mut place), 0);
        assert_eq!(tables::count_used(&table, &mut place), 1);
        assert_eq!(place, [1]);
    }
    let mut table = [0; ENTRY_BYTES];
    (table[0], table[13]) = (2, 4);
    let before = table;
    assert_eq!(
        tables::find_or_add_entry(&mut table, [0, 0], &NOBODY, &[0; 16]),
        1
    );
    assert_eq!(table, before, "it is a match, and a match writes no entry");
}

#[test]
fn row_40_a_scope_or_a_flow_label() {
    let plain = SocketAddrV6::new([0; 16].into(), 0, 0, 0);
    for (flow, scope) in [(1, 0), (0, 1)] {
        let other = SocketAddrV6::new([0; 16].into(), 0, flow, scope);
        let slot = Some((0, SocketAddr::V6(other)));
        let mut slots = Slots::new([slot].into_iter());
        assert_eq!(slots.by_address(plain.into()), None);
        assert_eq!(slots.by_address(other.into()), Some(0));
    }
    // Ours has no place for either: all of them are one address.
    let address = Address { kind: 6, ..NOBODY };
    let mut words = [9; 3];
    assert_eq!(tables::address(&address, &mut words), 0);
    assert_eq!(words, [6 << 16, 0, 0]);
}
