//! Private tokens that no client would make, read by both servers alike.

mod plant;

use std::net::SocketAddr;

use netcode::{Cipher, Nonce, Part, Sodium, Terms};
use plant::{Both, Event, Setting, KEY, PROTOCOL};

const EXPIRY: u64 = 1000;

/// A request with these 1,008 bytes sealed in it.
fn request(mut opened: [u8; 1008], nonce: [u8; 24]) -> Vec<u8> {
    let additional = [
        &b"NETCODE 1.02\0"[..],
        &PROTOCOL.to_le_bytes(),
        &EXPIRY.to_le_bytes(),
    ]
    .concat();
    let mut tag = [0; 16];
    let terms = Terms {
        key: &KEY,
        nonce: Nonce::Token(&nonce),
        additional: &additional,
    };
    let part = Part {
        text: &mut opened,
        tag: &mut tag,
    };
    assert!(Sodium::new().seal(&terms, part));
    [&[0][..], &additional, &nonce, &opened, &tag].concat()
}

/// One step of splitmix64.
fn next(state: &mut u64) -> u64 {
    *state = state.wrapping_add(0x9E37_79B9_7F4A_7C15);
    let mixed = (*state ^ (*state >> 30)).wrapping_mul(0xBF58_476D_1CE4_E5B9);
    let mixed = (mixed ^ (mixed >> 27)).wrapping_mul(0x94D0_49BB_1331_11EB);
    mixed ^ (mixed >> 31)
}

/// Random bytes, with a count of 0 to 35 and mostly known kinds, the server's own address among them now and then.
fn opened(state: &mut u64) -> [u8; 1008] {
    let mut bytes: Vec<u8> = (0..12).map(|_| next(state) as u8).collect();
    let count = next(state) % 36;
    bytes.extend((count as u32).to_le_bytes());
    for _ in 0..count.min(32) {
        match next(state) % 100 {
            0 => bytes.push(3 + next(state) as u8 % 253),
            1..=39 => bytes.push(0),
            40..=45 => bytes.extend([1, 10, 0, 0, 1, 0x88, 0x13]),
            46..=69 => bytes.extend([1, 10, 0, 0, 2, 0x88, next(state) as u8]),
            _ => bytes.extend([&[2][..], &[next(state) as u8; 18]].concat()),
        }
    }
    let mut whole = [0; 1008];
    whole.fill_with(|| next(state) as u8);
    whole[..bytes.len()].copy_from_slice(&bytes);
    whole
}

#[test]
fn random_tokens_come_to_the_same() {
    let mut line = Both::new(&Setting::of(4));
    let mut state = 1;
    let mut counts = [0; 3];
    for round in 0..600_u16 {
        let nonce = std::array::from_fn(|_| next(&mut state) as u8);
        let mut datagram = request(opened(&mut state), nonce);
        let sealed = datagram.clone();
        let from = SocketAddr::from(([10, 1, 1, 1], round));
        let event = line.arrived(from, &mut datagram);
        assert_eq!(datagram, sealed, "the token stays sealed");
        match (event, line.number()) {
            (Event::Send { .. }, 0) => counts[0] += 1,
            (Event::Nothing, 8) => counts[1] += 1,
            (Event::Nothing, 13) => counts[2] += 1,
            other => panic!("{other:?}"),
        }
    }
    assert!(counts.iter().all(|&count| count > 50), "{counts:?}");
}
