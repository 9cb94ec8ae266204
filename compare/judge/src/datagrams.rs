//! Drawn datagrams: good ones, damaged copies of good ones, and noise.

use crate::case::{Decode, Key, HIGH};
use crate::make::{count_of, Parts};
use crate::random::{payload_len, sequence};
use crate::rng::Rng;
use crate::windows;

pub fn draw(rng: &mut Rng) -> Decode {
    match rng.below(20) {
        0..2 => noise(rng),
        2 => request(rng),
        3 => short(rng),
        _ => packet(rng),
    }
}

pub fn body(rng: &mut Rng, kind: u8) -> Vec<u8> {
    let exact = match kind {
        2 | 3 => 308,
        4 => 8,
        5 => payload_len(rng),
        _ => 0,
    };
    let len = match rng.below(12) {
        0 => exact + 1 + rng.below(20),
        1 => exact.saturating_sub(1),
        2 => rng.below(exact + 1),
        _ => exact,
    };
    rng.bytes(len)
}

fn guarded(rng: &mut Rng, datagram: Vec<u8>, protocol: u64, key: Key, sequence: u64) -> Decode {
    Decode {
        datagram,
        protocol,
        key: (!rng.one_in(12)).then_some(key),
        window: (!rng.one_in(5)).then(|| windows::draw(rng, sequence)),
    }
}

/// Mostly inside the domain, since what is outside it tells less.
fn low(rng: &mut Rng) -> u64 {
    let sequence = sequence(rng);
    if sequence >= HIGH && !rng.one_in(4) {
        sequence - 600
    } else {
        sequence
    }
}

fn packet(rng: &mut Rng) -> Decode {
    let kind = rng.pick(&[1, 2, 3, 4, 4, 5, 5, 5, 6, 6]);
    let sequence = low(rng);
    let mut parts = Parts::new(kind, sequence, body(rng, kind));
    if rng.one_in(4) {
        parts.count += rng.below(9 - parts.count);
    }
    let (protocol, key) = (rng.number(), rng.array());
    let datagram = parts.seal(protocol, &key);
    let mut case = guarded(rng, datagram, protocol, key, sequence);
    if rng.one_in(2) {
        damage(rng, &mut case, &parts);
    }
    case
}

fn damage(rng: &mut Rng, case: &mut Decode, parts: &Parts) {
    let len = case.datagram.len();
    match rng.below(9) {
        0 | 1 => case.datagram[rng.below(len)] ^= 1 << rng.below(8),
        2 => case.datagram.truncate(rng.below(len)),
        3 => {
            let more = 1 + rng.below(20);
            let more = rng.bytes(more);
            case.datagram.extend_from_slice(&more);
        }
        4 => case.key = Some(rng.array()),
        5 => case.protocol ^= 1 << rng.below(64),
        6 => case.datagram[0] = case.datagram[0] & 0xF0 | rng.below(16) as u8,
        7 => repad(rng, case, parts),
        _ => case.datagram[len - 1 - rng.below(16)] ^= 1 << rng.below(8),
    }
}

/// The same sequence in more bytes: the tag is over the old prefix byte.
fn repad(rng: &mut Rng, case: &mut Decode, parts: &Parts) {
    let count = parts.count + rng.below(9 - parts.count);
    let mut datagram = vec![parts.kind | (count as u8) << 4];
    datagram.extend_from_slice(&parts.sequence.to_le_bytes()[..count]);
    datagram.extend_from_slice(&case.datagram[1 + parts.count..]);
    case.datagram = datagram;
}

/// A part of under 16 bytes, or just 16, with a window that may refuse first.
fn short(rng: &mut Rng) -> Decode {
    let kind = 1 + rng.below(6) as u8;
    let sequence = low(rng);
    let count = count_of(sequence).max(2);
    let count = count + rng.below(9 - count);
    let mut datagram = vec![kind | (count as u8) << 4];
    datagram.extend_from_slice(&sequence.to_le_bytes()[..count]);
    let len = 17 - count + rng.below(count);
    let rest = rng.bytes(len);
    datagram.extend_from_slice(&rest);
    let (protocol, key) = (rng.number(), rng.array());
    guarded(rng, datagram, protocol, key, sequence)
}

fn request(rng: &mut Rng) -> Decode {
    let len = match rng.below(4) {
        0 => 1078,
        1 => 1078 + rng.below(30),
        2 => 1078 - rng.below(30),
        _ => 18 + rng.below(1500),
    };
    let mut datagram = rng.bytes(len);
    datagram[0] &= 0xF0;
    let (protocol, key) = (rng.number(), rng.array());
    guarded(rng, datagram, protocol, key, 0)
}

fn noise(rng: &mut Rng) -> Decode {
    let len = rng.below(80);
    let mut datagram = rng.bytes(len);
    if let Some(first) = datagram.first_mut() {
        if rng.one_in(2) {
            *first = rng.below(7) as u8 | *first & 0xF0;
        }
    }
    let (protocol, key) = (rng.number(), rng.array());
    guarded(rng, datagram, protocol, key, 0)
}
