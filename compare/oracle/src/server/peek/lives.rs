//! A whole server read and written field by field, copied, and asked so that its errors show.

use std::net::SocketAddr;
use std::time::Duration;

use super::super::{
    ConnectTokenEntry, Connection, ConnectionState, NetcodeError, NetcodeServer, ServerResult,
};
use super::{connection, Entry};
use crate::replay_protection::peek;

/// A connection in words: confirmed, send key 4, receive key 4, received 2, sent 2, timeout, sequence, expiry, user data 32,
/// highest sequence, window 256.
pub type Words = [u64; 305];

/// Id, address and the rest of a connection.
pub type Row = (u64, SocketAddr, Words);

fn pack(words: &mut [u64], bytes: &[u8]) {
    for (word, eight) in words.iter_mut().zip(bytes.chunks(8)) {
        *word = u64::from_le_bytes(eight.try_into().expect("eight bytes"));
    }
}

fn unpack<const N: usize>(words: &[u64]) -> [u8; N] {
    let mut bytes = [0; N];
    for (eight, word) in bytes.chunks_mut(8).zip(words) {
        eight.copy_from_slice(&word.to_le_bytes());
    }
    bytes
}

fn put_time(words: &mut [u64], time: Duration) {
    words[0] = time.as_secs();
    words[1] = u64::from(time.subsec_nanos());
}

fn time_in(words: &[u64]) -> Duration {
    Duration::new(words[0], words[1] as u32)
}

fn put_words(client: &Connection, words: &mut [u64]) {
    words[0] = u64::from(client.confirmed);
    pack(&mut words[1..5], &client.send_key);
    pack(&mut words[5..9], &client.receive_key);
    put_time(&mut words[9..11], client.last_packet_received_time);
    put_time(&mut words[11..13], client.last_packet_send_time);
    words[13] = u64::from(client.timeout_seconds as u32);
    words[14] = client.sequence;
    words[15] = client.expire_timestamp;
    pack(&mut words[16..48], &client.user_data);
    words[48..].copy_from_slice(&peek::words(&client.replay_protection));
}

fn row_of(client: &Connection) -> Row {
    let mut words = [0; 305];
    put_words(client, &mut words);
    (client.client_id, client.addr, words)
}

/// Panics for nanoseconds of over 32 bits, which is a mistake of the harness.
fn connection_of((client_id, addr, words): &Row, state: ConnectionState) -> Connection {
    Connection {
        confirmed: words[0] != 0,
        state,
        send_key: unpack(&words[1..5]),
        receive_key: unpack(&words[5..9]),
        last_packet_received_time: time_in(&words[9..11]),
        last_packet_send_time: time_in(&words[11..13]),
        timeout_seconds: words[13] as u32 as i32,
        expire_timestamp: words[15],
        user_data: unpack(&words[16..48]),
        replay_protection: peek::from_words(&words[48..].try_into().expect("257 words")),
        ..connection(*client_id, *addr, words[14])
    }
}

pub fn copy(server: &NetcodeServer) -> NetcodeServer {
    NetcodeServer {
        clients: server.clients.clone(),
        pending_clients: server.pending_clients.clone(),
        connect_token_entries: server.connect_token_entries.clone(),
        protocol_id: server.protocol_id,
        connect_key: server.connect_key,
        max_clients: server.max_clients,
        challenge_sequence: server.challenge_sequence,
        challenge_key: server.challenge_key,
        public_addresses: server.public_addresses.clone(),
        current_time: server.current_time,
        global_sequence: server.global_sequence,
        secure: server.secure,
        out: server.out,
    }
}

/// `process_packet` before its error is thrown away.
pub fn process_packet<'a, 's>(
    server: &'s mut NetcodeServer,
    addr: SocketAddr,
    buffer: &'a mut [u8],
) -> Result<ServerResult<'a, 's>, NetcodeError> {
    server.process_packet_internal(addr, buffer)
}

/// Where the server's output lies.
pub fn output(server: &NetcodeServer) -> usize {
    server.out.as_ptr() as usize
}

pub fn slots(server: &NetcodeServer) -> usize {
    server.clients.len()
}

pub fn slot(server: &NetcodeServer, place: usize) -> Option<Row> {
    server.clients.get(place)?.as_ref().map(row_of)
}

/// Id and address of the one in a slot, and its words where they are wanted.
pub fn slot_into(
    server: &NetcodeServer,
    place: usize,
    words: &mut [u64],
) -> Option<(u64, SocketAddr)> {
    let client = server.clients[place].as_ref()?;
    put_words(client, words);
    Some((client.client_id, client.addr))
}

pub fn put_slot(server: &mut NetcodeServer, place: usize, row: Option<&Row>) {
    server.clients[place] = row.map(|row| connection_of(row, ConnectionState::Connected));
}

pub fn pending_at(server: &NetcodeServer, addr: SocketAddr) -> Option<Row> {
    server.pending_clients.get(&addr).map(row_of)
}

/// Whether it is pending; its id, and its words where they are wanted, if so.
pub fn pending_into(server: &NetcodeServer, addr: SocketAddr, words: &mut [u64]) -> Option<u64> {
    let client = server.pending_clients.get(&addr)?;
    put_words(client, words);
    Some(client.client_id)
}

pub fn pending_addresses(server: &NetcodeServer) -> impl Iterator<Item = SocketAddr> + '_ {
    server.pending_clients.keys().copied()
}

pub fn pending_count(server: &NetcodeServer) -> usize {
    server.pending_clients.len()
}

pub fn put_pending(server: &mut NetcodeServer, row: &Row) {
    let pending = connection_of(row, ConnectionState::PendingResponse);
    server.pending_clients.insert(row.1, pending);
}

pub fn entries(server: &NetcodeServer) -> impl Iterator<Item = Option<Entry>> + '_ {
    let entries = server.connect_token_entries.iter();
    entries.map(|entry| entry.map(|entry| (entry.time, entry.address, entry.mac)))
}

pub fn put_entry(server: &mut NetcodeServer, place: usize, entry: Option<Entry>) {
    server.connect_token_entries[place] =
        entry.map(|(time, address, mac)| ConnectTokenEntry { time, address, mac });
}

/// The global one first.
pub fn counters(server: &NetcodeServer) -> [u64; 2] {
    [server.global_sequence, server.challenge_sequence]
}

pub fn put_counters(server: &mut NetcodeServer, [global, challenge]: [u64; 2]) {
    server.global_sequence = global;
    server.challenge_sequence = challenge;
}

pub fn put_clock(server: &mut NetcodeServer, now: Duration) {
    server.current_time = now;
}

pub fn is_pending(server: &NetcodeServer, addr: SocketAddr) -> bool {
    server.pending_clients.contains_key(&addr)
}
