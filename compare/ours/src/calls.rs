//! One safe function for each of the library's calls, nothing added.
//!
//! SAFETY, for all of them: every pointer comes from a reference, a slice's with its own length, and
//! the library is proved to stay inside what it is lent.

use crate::{sys, Desk, Packet, Told, Window};

pub fn sequence_bytes_required(sequence: u64) -> usize {
    unsafe { sys::pump_sequence_bytes_required(sequence) }
}

pub fn encode_prefix(value: u8, sequence: u64) -> u8 {
    unsafe { sys::pump_encode_prefix(value, sequence) }
}

/// The type and the count of sequence bytes.
pub fn decode_prefix(value: u8) -> [u64; 2] {
    let mut words = [u64::MAX; 2];
    unsafe { sys::pump_decode_prefix(value, &mut words) };
    words
}

pub fn write_sequence(out: &mut [u8; 8], sequence: u64) -> usize {
    unsafe { sys::pump_write_sequence(out, sequence) }
}

/// The number that refuses, 0 for none, and the sequence.
pub fn read_sequence(source: &[u8], at: usize, len: usize) -> [u64; 2] {
    let mut words = [u64::MAX; 2];
    unsafe { sys::pump_read_sequence(source.as_ptr(), source.len(), at, len, &mut words) };
    words
}

pub fn additional_data(prefix: u8, protocol: u64) -> [u8; 22] {
    let mut out = [0xA5; 22];
    unsafe { sys::pump_get_additional_data(&mut out, prefix, protocol) };
    out
}

pub fn token_additional_data(protocol: u64, expiry: u64) -> [u8; 29] {
    let mut out = [0xA5; 29];
    unsafe { sys::pump_get_token_additional_data(&mut out, protocol, expiry) };
    out
}

pub fn new_window() -> Window {
    let mut window = [0xA5A5; 257];
    unsafe { sys::pump_new_window(&mut window) };
    window
}

/// 0 or 1.
pub fn already_received(window: &Window, sequence: u64) -> u8 {
    unsafe { sys::pump_already_received(window, sequence) }
}

pub fn refusal(window: &Window, sequence: u64) -> u8 {
    unsafe { sys::pump_refusal(window, sequence) }
}

/// By value inside, as document 01 has it.
pub fn advance_sequence(window: &mut Window, sequence: u64) {
    unsafe { sys::pump_advance_sequence(window, sequence) }
}

pub fn refusal_at(window: &Window, sequence: u64) -> u8 {
    unsafe { sys::pump_refusal_at(window, sequence) }
}

/// In place, as a server uses it.
pub fn advance_at(window: &mut Window, sequence: u64) {
    unsafe { sys::pump_advance_at(window, sequence) }
}

/// Without a key the library gets bytes that it must not look at.
pub fn encode(
    out: &mut [u8],
    packet: &Packet,
    protocol: u64,
    key: Option<&[u8; 32]>,
    sequence: u64,
    desk: &mut Desk,
    told: &mut Told,
) {
    unsafe {
        sys::pump_encode(
            out.as_mut_ptr(),
            out.len(),
            packet.kind,
            packet.a,
            packet.b,
            packet.bytes.as_ptr(),
            packet.bytes.len(),
            protocol,
            key.is_some(),
            key.unwrap_or(&[0xA5; 32]),
            sequence,
            desk,
            told,
        )
    }
}

pub fn answer_seal(out: &[u8], granted: bool, desk: &mut Desk) {
    unsafe { sys::pump_answer_seal(out.as_ptr(), out.len(), granted, desk) }
}

/// `guarded` says whether the window counts; where it does not, the library must leave it alone.
pub fn decode(
    datagram: &[u8],
    protocol: u64,
    key: Option<&[u8; 32]>,
    guarded: bool,
    window: &mut Window,
    desk: &mut Desk,
    told: &mut Told,
) {
    unsafe {
        sys::pump_decode(
            datagram.as_ptr(),
            datagram.len(),
            protocol,
            key.is_some(),
            key.unwrap_or(&[0xA5; 32]),
            guarded,
            window,
            desk,
            told,
        )
    }
}

pub fn answer_open(
    datagram: &[u8],
    guarded: bool,
    window: &mut Window,
    granted: bool,
    desk: &mut Desk,
) {
    unsafe {
        sys::pump_answer_open(
            datagram.as_ptr(),
            datagram.len(),
            guarded,
            window,
            granted,
            desk,
        )
    }
}

/// The length of a part of a body, which is copied to the start of `out` if it fits there. Which:
/// 0 version, 1 nonce, 2 private data, 3 token data, else all of it.
pub fn field(which: u8, src: &[u8], at: usize, end: usize, out: &mut [u8]) -> usize {
    unsafe {
        sys::pump_field(
            which,
            src.as_ptr(),
            src.len(),
            at,
            end,
            out.as_mut_ptr(),
            out.len(),
        )
    }
}

#[allow(clippy::too_many_arguments)]
pub fn generate_challenge(
    out: &mut [u8],
    at: usize,
    client: u64,
    user: &[u8; 256],
    sequence: u64,
    key: &[u8; 32],
    desk: &mut Desk,
    told: &mut Told,
) {
    unsafe {
        sys::pump_generate_challenge(
            out.as_mut_ptr(),
            out.len(),
            at,
            client,
            user,
            sequence,
            key,
            desk,
            told,
        )
    }
}

pub fn decode_challenge(
    token: &[u8],
    at: usize,
    sequence: u64,
    key: &[u8; 32],
    desk: &mut Desk,
    told: &mut Told,
) {
    unsafe {
        sys::pump_decode_challenge(token.as_ptr(), token.len(), at, sequence, key, desk, told)
    }
}

pub fn answer_challenge(token: &[u8], granted: bool, desk: &mut Desk, user: &mut [u8; 256]) {
    unsafe { sys::pump_answer_challenge(token.as_ptr(), token.len(), granted, desk, user) }
}
