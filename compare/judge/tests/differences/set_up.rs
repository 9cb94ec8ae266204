//! Set-up, beside the Rust's `new`.

use std::panic::catch_unwind;
use std::time::Duration;

use oracle::servers::{kept, NetcodeServer, ServerAuthentication, ServerConfig};
use ours::servers::{self, Answer, Config, Record, CHALLENGE_KEY, LIMIT, SLOTS};
use ours::tables::{self, ENTRY_BYTES, PLACE_WORDS};

pub const LAST: u64 = u64::MAX;
pub const NOTHING: Answer = [1, 0, 0, 0, 0, 0, 0, 0, 0, 0, 0, 0, 0, 0];

fn theirs(max_clients: usize) -> NetcodeServer {
    NetcodeServer::new(ServerConfig {
        current_time: Duration::ZERO,
        max_clients,
        protocol_id: 0,
        public_addresses: Vec::new(),
        authentication: ServerAuthentication::Unsecure,
    })
}

/// A server of ours with its slots.
pub struct Ours {
    pub refusal: u8,
    pub record: Record,
    pub slots: Vec<u64>,
}

/// So many slots, one pending place, one token entry, these public addresses.
pub fn set_up(config: Config, slots: usize, public: &[u64]) -> Ours {
    let mut record = [9; 34];
    let mut slots = vec![9; PLACE_WORDS * slots];
    let (mut pending, mut entries) = ([9; PLACE_WORDS], [9; ENTRY_BYTES]);
    let refusal = servers::set_up(
        &mut record,
        &config,
        &mut slots,
        &mut pending,
        &mut entries,
        public,
    );
    if refusal != 0 {
        assert!(slots.iter().chain(&pending).all(|word| *word == 9));
        assert_eq!((record, entries), ([0; 34], [9; ENTRY_BYTES]));
    }
    Ours {
        refusal,
        record,
        slots,
    }
}

pub fn limited(max_clients: u64) -> Config {
    Config {
        clock: [0, 0],
        max_clients,
        protocol_id: 0,
        secure: false,
        connect_key: [0; 32],
        challenge_key: [0; 32],
    }
}

pub fn at(clock: [u64; 2]) -> Config {
    Config {
        clock,
        ..limited(1)
    }
}

#[test]
fn row_41_a_limit_under_the_slots() {
    let mut server = theirs(0);
    server.set_max_clients(1);
    assert_eq!((server.max_clients(), kept(&server).slots), (1, 0));
    let mut ours = set_up(limited(0), 1, &[]);
    assert_eq!((ours.refusal, ours.record[SLOTS]), (0, 1));
    assert_eq!(servers::set_max_clients(&mut ours.record, 1), NOTHING);
    assert_eq!(servers::itself(&ours.record), [1, 0, 0]);
    let mut place = [9];
    assert_eq!(tables::find_free(&ours.slots, &mut place), 1);
    assert_eq!(place, [0]);
}

#[test]
fn row_42_a_limit_over_the_slots() {
    assert_eq!(kept(&theirs(2)).slots, 2);
    assert!(catch_unwind(|| theirs(1025)).is_err());
    for limit in [2, 1025, LAST] {
        assert_eq!(set_up(limited(limit), 1, &[]).refusal, 23);
    }
    // Later both take it, and neither gets a slot by it.
    let mut server = theirs(1);
    server.set_max_clients(2);
    assert_eq!((server.max_clients(), kept(&server).slots), (2, 1));
    let mut ours = set_up(limited(1), 1, &[]);
    assert_eq!(servers::set_max_clients(&mut ours.record, 2), NOTHING);
    assert_eq!((ours.record[LIMIT], ours.record[SLOTS]), (2, 1));
}

#[test]
fn row_47_a_start_past_the_clocks_range() {
    const SECOND: u64 = 1_000_000_000;
    let made = catch_unwind(|| Duration::new(LAST, SECOND as u32));
    assert!(made.is_err(), "the Rust has no such time");
    assert_eq!(set_up(at([LAST, SECOND]), 1, &[]).refusal, 20);
    let ours = set_up(at([LAST - 1, SECOND]), 1, &[]);
    assert_eq!(
        (ours.refusal, servers::itself(&ours.record)),
        (0, [1, LAST, 0])
    );
}

#[test]
fn row_48_a_malformed_public_address() {
    let bad = [5 << 16, 0, 0];
    assert_eq!(set_up(limited(1), 1, &bad).refusal, 19);
    assert_eq!(set_up(limited(1), 1, &[4 << 16, 1 << 32, 0]).refusal, 19);
    let late = at([LAST, LAST]);
    assert_eq!(set_up(late, 1, &bad).refusal, 19, "19 before 20");
    assert_eq!(set_up(late, 0, &bad).refusal, 23, "23 before both");
    assert_eq!(set_up(late, 1, &bad[..2]).refusal, 23, "no whole address");
}

#[test]
fn row_49_the_challenge_key() {
    let drawn = [theirs(1), theirs(1)].map(|server| kept(&server).challenge_key);
    assert_ne!(drawn[0], drawn[1]);
    let mut config = limited(1);
    config.challenge_key = [[1; 8], [2; 8], [3; 8], [4; 8]]
        .concat()
        .try_into()
        .expect("32 bytes");
    let ours = set_up(config, 1, &[]).record;
    let words = [1, 2, 3, 4].map(|byte| u64::from_le_bytes([byte; 8]));
    assert_eq!(ours[CHALLENGE_KEY..CHALLENGE_KEY + 4], words);
}

/// No row: these have no counterpart. A number that set-up refuses has no length.
#[test]
fn lengths_by_numbers_of_places() {
    assert_eq!([1, 1024, 1025].map(servers::slots_words), [310, 317_440, 0]);
    let pending = [1, 4096, 4097].map(servers::pending_words);
    assert_eq!(pending, [310, 1_269_760, 0]);
    let entries = [1, 2048, 2049].map(servers::entries_bytes);
    assert_eq!(entries, [48, 98_304, 0]);
    let addresses = [0, 1, u32::MAX as usize, 1 << 32].map(servers::addresses_words);
    assert_eq!(addresses, [0, 3, 3 * u32::MAX as usize, 0]);
}
