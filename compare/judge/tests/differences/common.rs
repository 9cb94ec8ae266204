use std::hint::black_box;
use std::panic::catch_unwind;

use chacha20poly1305::{AeadInPlace, ChaCha20Poly1305, Key, KeyInit, Nonce};
use oracle::calls::{self as rust, Answer, Fault, Fields, Window};

pub const KEY: [u8; 32] = [0; 32];

/// Whether this build, the Rust's and the harness's alike, panics where a sum passes its range.
pub fn checked() -> bool {
    catch_unwind(|| black_box(u64::MAX) + black_box(1)).is_err()
}

/// A datagram under a good tag, made by hand; `count` sequence bytes may be more than are needed.
pub fn sealed(kind: u8, count: usize, sequence: u64, body: &[u8]) -> Vec<u8> {
    let prefix = kind | (count as u8) << 4;
    let mut datagram = vec![prefix];
    datagram.extend_from_slice(&sequence.to_le_bytes()[..count]);
    let mut nonce = [0; 12];
    nonce[4..].copy_from_slice(&sequence.to_le_bytes());
    let additional = rust::additional_data(prefix, 0);
    let mut text = body.to_vec();
    let tag = ChaCha20Poly1305::new(Key::from_slice(&KEY))
        .encrypt_in_place_detached(&Nonce::from(nonce), &additional, &mut text)
        .expect("nobody refuses seals here");
    datagram.extend_from_slice(&text);
    datagram.extend_from_slice(&tag);
    datagram
}

/// What a decode came to, in the same words for both sides.
#[derive(Debug, PartialEq, Eq)]
pub enum Came {
    Read(u64, Fields),
    Refused(u8),
    Panicked,
}

pub fn number(fault: Fault) -> u8 {
    match fault {
        Fault::PacketTooSmall => 1,
        Fault::InvalidPacketType => 2,
        Fault::UnavailablePrivateKey => 3,
        Fault::DuplicatedSequence => 6,
        Fault::CryptoError => 8,
        Fault::IoError => 9,
        Fault::Other => 255,
    }
}

/// The Rust's answer and window.
pub fn theirs(datagram: &[u8], window: Option<&Window>) -> (Came, Option<Window>) {
    match rust::decode(datagram.to_vec(), 0, Some(&KEY), window) {
        Answer::Is(decoded) => match decoded.result {
            Ok((sequence, packet)) => (Came::Read(sequence, packet), decoded.window),
            Err(fault) => (Came::Refused(number(fault)), decoded.window),
        },
        Answer::Panicked { window, .. } => (Came::Panicked, window),
    }
}

/// Ours.
pub fn mine(datagram: &[u8], window: Option<&Window>) -> (Came, Option<Window>) {
    let decoded = ours::decode(datagram.to_vec(), 0, Some(&KEY), window);
    assert_eq!(decoded.broken, None);
    let came = match decoded.read {
        Some(read) => {
            let kind = read.kind as u8;
            let (a, b, bytes) = (read.a, read.b, read.bytes);
            Came::Read(read.sequence, Fields { kind, a, b, bytes })
        }
        None => Came::Refused(decoded.number as u8),
    };
    (came, decoded.window)
}

pub fn fields(kind: u8, a: u64, b: u64, bytes: &[u8]) -> Fields {
    Fields {
        kind,
        a,
        b,
        bytes: bytes.to_vec(),
    }
}

pub fn is<T>(answer: Answer<T>) -> T {
    match answer {
        Answer::Is(value) => value,
        Answer::Panicked { .. } => panic!("the Rust panicked"),
    }
}

pub fn panicked<T>(answer: Answer<T>) -> bool {
    matches!(answer, Answer::Panicked { .. })
}
