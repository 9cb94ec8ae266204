//! The server's set-up, upkeep and queries: one safe function for each call of `netcode`, nothing added.
//!
//! SAFETY, for all of them: as in `calls`.

use crate::sys::servers as sys;

pub use sys::{Answer, Record, Reply};

/// Where in a record, as `netcode/src/record.rt` lays it out: numbers of places, of public addresses, and so
/// on.
pub const SLOTS: usize = 0;
pub const PENDING: usize = 1;
pub const ENTRIES: usize = 2;
pub const ADDRESSES: usize = 3;
pub const SECURE: usize = 4;
pub const PROTOCOL: usize = 5;
pub const LIMIT: usize = 6;
pub const CLOCK: usize = 7;
pub const COUNTERS: usize = 9;
/// Which step the open ask goes on with, 1 to 9; 0 where none is open. Then two lengths of buffers.
pub const STAGE: usize = 11;
pub const CONNECT_KEY: usize = 14;
pub const CHALLENGE_KEY: usize = 18;
/// The rest of that step, to the record's end.
pub const STEP: usize = 22;

/// Stand where an answer comes, so that it shows whether one was written.
pub const UNANSWERED: Answer = [0xA5A5; 14];
pub const UNREPLIED: Reply = [0xA5A5; 5];

/// What a server begins with.
#[derive(Debug, Clone, Copy, PartialEq, Eq)]
pub struct Config {
    pub clock: [u64; 2],
    pub max_clients: u64,
    pub protocol_id: u64,
    pub secure: bool,
    pub connect_key: [u8; 32],
    pub challenge_key: [u8; 32],
}

/// How long a table of so many slots, pending places, entries or public addresses is.
pub fn slots_words(slots: usize) -> usize {
    unsafe { sys::netcode_slots_words(slots) }
}

pub fn pending_words(pending: usize) -> usize {
    unsafe { sys::netcode_pending_words(pending) }
}

pub fn entries_bytes(entries: usize) -> usize {
    unsafe { sys::netcode_entries_bytes(entries) }
}

pub fn addresses_words(addresses: usize) -> usize {
    unsafe { sys::netcode_addresses_words(addresses) }
}

pub fn set_up(
    record: &mut Record,
    config: &Config,
    slots: &mut [u64],
    pending: &mut [u64],
    entries: &mut [u8],
    public: &[u64],
) -> u8 {
    unsafe {
        sys::netcode_set_up(
            record,
            config.clock[0],
            config.clock[1],
            config.max_clients as usize,
            config.protocol_id,
            config.secure.into(),
            &config.connect_key,
            &config.challenge_key,
            slots.as_mut_ptr(),
            slots.len(),
            pending.as_mut_ptr(),
            pending.len(),
            entries.as_mut_ptr(),
            entries.len(),
            public.as_ptr(),
            public.len(),
        )
    }
}

pub fn update(record: &mut Record, pending: &mut [u64], step: [u64; 2]) -> Answer {
    let mut answer = UNANSWERED;
    let (words, len) = (pending.as_mut_ptr(), pending.len());
    unsafe { sys::netcode_update(record, words, len, step[0], step[1], &mut answer) };
    answer
}

pub fn set_max_clients(record: &mut Record, max_clients: u64) -> Answer {
    let mut answer = UNANSWERED;
    unsafe { sys::netcode_set_max_clients(record, max_clients as usize, &mut answer) };
    answer
}

/// `max_clients` and `current_time`: the limit, then seconds and nanoseconds.
pub fn itself(record: &Record) -> [u64; 3] {
    let mut out = [0xA5A5; 3];
    unsafe { sys::netcode_server_itself(record, &mut out) };
    out
}

pub fn connected_clients(record: &Record, slots: &[u64]) -> Reply {
    let mut reply = UNREPLIED;
    unsafe { sys::netcode_connected_clients(record, slots.as_ptr(), slots.len(), &mut reply) };
    reply
}

pub fn is_client_connected(record: &Record, slots: &[u64], id: u64) -> Reply {
    let mut reply = UNREPLIED;
    unsafe {
        sys::netcode_is_client_connected(record, slots.as_ptr(), slots.len(), id, &mut reply)
    };
    reply
}

pub fn client_addr(record: &Record, slots: &[u64], id: u64) -> Reply {
    let mut reply = UNREPLIED;
    unsafe { sys::netcode_client_addr(record, slots.as_ptr(), slots.len(), id, &mut reply) };
    reply
}

pub fn time_since_last_received_packet(record: &Record, slots: &[u64], id: u64) -> Reply {
    let mut reply = UNREPLIED;
    let (words, len) = (slots.as_ptr(), slots.len());
    unsafe { sys::netcode_time_since_last_received_packet(record, words, len, id, &mut reply) };
    reply
}

pub fn user_data(record: &Record, slots: &[u64], id: u64, out: &mut [u8; 256]) -> Reply {
    let mut reply = UNREPLIED;
    unsafe { sys::netcode_user_data(record, slots.as_ptr(), slots.len(), id, out, &mut reply) };
    reply
}

pub fn clients_id(record: &Record, slots: &[u64], list: &mut [u64]) -> Reply {
    let mut reply = UNREPLIED;
    let (words, len) = (slots.as_ptr(), slots.len());
    let (to, room) = (list.as_mut_ptr(), list.len());
    unsafe { sys::netcode_clients_id(record, words, len, to, room, &mut reply) };
    reply
}

pub fn clients_slot(record: &Record, slots: &[u64], list: &mut [u64]) -> Reply {
    let mut reply = UNREPLIED;
    let (words, len) = (slots.as_ptr(), slots.len());
    let (to, room) = (list.as_mut_ptr(), list.len());
    unsafe { sys::netcode_clients_slot(record, words, len, to, room, &mut reply) };
    reply
}

pub fn addresses(record: &Record, public: &[u64], list: &mut [u64]) -> Reply {
    let mut reply = UNREPLIED;
    let (words, len) = (public.as_ptr(), public.len());
    let (to, room) = (list.as_mut_ptr(), list.len());
    unsafe { sys::netcode_addresses(record, words, len, to, room, &mut reply) };
    reply
}
