//! Encode and decode. Ours is two calls with the host's work between them, as it is in a program.

use std::hint::black_box;

use chacha20poly1305::{AeadInPlace, ChaCha20Poly1305, Key, KeyInit, Nonce, Tag};
use oracle::raw::{Packet, ReplayProtection};
use ours::calls;

use crate::rounds::{compare, Row};

const CALLS: usize = 100_000;
const KEY: [u8; 32] = [7; 32];
const PROTOCOL: u64 = 7;

/// What the original's `crypto.rs` does around its cipher, here done by the host on the ask's part.
fn cipher(desk: &ours::Desk, told: &ours::Told) -> (ChaCha20Poly1305, Nonce, usize, usize) {
    let nonce: [u8; 12] = told[32..44].try_into().expect("twelve bytes");
    let cipher = ChaCha20Poly1305::new(Key::from_slice(&told[..32]));
    (
        cipher,
        Nonce::from(nonce),
        desk[10] as usize,
        desk[11] as usize,
    )
}

fn host_seals(out: &mut [u8], desk: &ours::Desk, told: &ours::Told) -> bool {
    let (cipher, nonce, start, end) = cipher(desk, told);
    let (text, place) = out[start..end].split_at_mut(end - start - 16);
    match cipher.encrypt_in_place_detached(&nonce, &told[44..66], text) {
        Ok(tag) => place.copy_from_slice(&tag),
        Err(_) => return false,
    }
    true
}

fn host_opens(datagram: &mut [u8], desk: &ours::Desk, told: &ours::Told) -> bool {
    let (cipher, nonce, start, end) = cipher(desk, told);
    let (text, tag) = datagram[start..end].split_at_mut(end - start - 16);
    cipher
        .decrypt_in_place_detached(&nonce, &told[44..66], text, Tag::from_slice(tag))
        .is_ok()
}

fn encode(name: &str, theirs: Packet, mine: ours::Packet) -> Row {
    let rust = || {
        let mut out = [0u8; 1400];
        for sequence in 0..CALLS as u64 {
            let done = theirs.encode(black_box(&mut out), PROTOCOL, Some((sequence, &KEY)));
            black_box(done.expect("it fits"));
        }
    };
    let ours = || {
        let mut out = [0u8; 1400];
        let (mut desk, mut told) = ([0; 16], [0; 66]);
        for sequence in 0..CALLS as u64 {
            calls::encode(
                black_box(&mut out),
                &mine,
                PROTOCOL,
                Some(&KEY),
                sequence,
                &mut desk,
                &mut told,
            );
            let granted = host_seals(&mut out, &desk, &told);
            calls::answer_seal(&out, granted, &mut desk);
            assert_eq!(black_box(desk[0]), 2);
        }
    };
    compare(name, CALLS, rust, ours)
}

pub fn encode_keep_alive() -> Row {
    let theirs = Packet::KeepAlive {
        client_index: 3,
        max_clients: 8,
    };
    encode(
        "encode a keep-alive",
        theirs,
        ours::Packet {
            kind: 4,
            a: 3,
            b: 8,
            bytes: &[],
        },
    )
}

pub fn encode_payload(len: usize) -> Row {
    let bytes = vec![5; len];
    let mine = ours::Packet {
        kind: 5,
        a: 0,
        b: 0,
        bytes: &bytes,
    };
    encode(
        &format!("encode a payload of {len} bytes"),
        Packet::Payload(&bytes),
        mine,
    )
}

/// Payloads under rising sequences of two bytes, so that a fresh window takes them all.
fn datagrams(len: usize) -> Vec<Vec<u8>> {
    (256..4352u16)
        .map(|sequence| {
            let mut datagram = vec![0; 1 + 2 + len + 16];
            datagram[0] = 0x25;
            datagram[1..3].copy_from_slice(&sequence.to_le_bytes());
            datagram
        })
        .collect()
}

pub fn decode_payload(len: usize) -> Row {
    let (mut theirs, mut mine) = (datagrams(len), datagrams(len));
    let turns = CALLS / theirs.len();
    let rust = || {
        for _ in 0..turns {
            let mut window = ReplayProtection::new();
            for datagram in &mut theirs {
                let read =
                    Packet::decode(black_box(datagram), PROTOCOL, Some(&KEY), Some(&mut window));
                assert!(black_box(read).is_ok());
            }
        }
    };
    let ours = || {
        let (mut desk, mut told) = ([0; 16], [0; 66]);
        for _ in 0..turns {
            let mut window = calls::new_window();
            for datagram in &mut mine {
                calls::decode(
                    black_box(datagram),
                    PROTOCOL,
                    Some(&KEY),
                    true,
                    &mut window,
                    &mut desk,
                    &mut told,
                );
                let granted = host_opens(datagram, &desk, &told);
                calls::answer_open(datagram, true, &mut window, granted, &mut desk);
                assert_eq!(black_box(desk[0]), 2);
            }
        }
    };
    compare(
        &format!("decode a payload of {len} bytes, window by value"),
        turns * 4096,
        rust,
        ours,
    )
}
