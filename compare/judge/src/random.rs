//! Drawn cases, weighted so that every branch is met often.

use crate::arrivals::Arrivals;
use crate::case::{Case, Challenge, Encode, Fields, Proof};
use crate::datagrams;
use crate::judge::{Found, Judge};
use crate::make;
use crate::rng::Rng;
use crate::windows;

/// How many runs of arrivals were begun.
pub fn run(judge: &mut Judge, rng: &mut Rng, cases: u64) -> Result<u64, Found> {
    let mut arrivals = Arrivals::new(rng);
    for _ in 0..cases {
        match rng.below(100) {
            0..30 => arrivals.put(judge, rng)?,
            drawn => {
                judge.put(draw(rng, drawn))?;
            }
        }
    }
    Ok(arrivals.runs)
}

fn draw(rng: &mut Rng, drawn: usize) -> Case {
    match drawn {
        30..32 => Case::Prefix {
            value: rng.mostly_below(16, 10, 256) as u8,
            sequence: sequence(rng),
        },
        32 => Case::Additional {
            prefix: rng.next() as u8,
            protocol: rng.number(),
        },
        33 => Case::Private {
            protocol: rng.number(),
            expiry: rng.number(),
        },
        34..37 => source(rng),
        37..47 => {
            let sequence = sequence(rng);
            let window = windows::draw(rng, sequence);
            Case::Window { window, sequence }
        }
        47..62 => Case::Encode(encode(rng)),
        62..65 => Case::Challenge(Box::new(challenge(rng))),
        65..69 => Case::Proof(proof(rng)),
        _ => Case::Decode(datagrams::draw(rng)),
    }
}

/// Of any size, next to a power of 256, small, or at the upper end.
pub fn sequence(rng: &mut Rng) -> u64 {
    match rng.below(20) {
        0..10 => rng.number(),
        10..13 => rng.next() % 1000,
        13..17 => {
            let power = 1 << (8 * rng.below(8));
            rng.near(power, 2)
        }
        17 => u64::MAX - rng.next() % 300,
        18 => crate::case::HIGH - 1 - rng.next() % 300,
        _ => 0,
    }
}

fn source(rng: &mut Rng) -> Case {
    let room = rng.below(14);
    let source = rng.bytes(room);
    let at = rng.below(room + 1);
    let len = rng.mostly_below(10, 8, 40);
    Case::Sequence { source, at, len }
}

/// Mostly short, sometimes as long as a datagram can be.
pub fn payload_len(rng: &mut Rng) -> usize {
    match rng.below(20) {
        0..14 => rng.below(40),
        14..18 => rng.below(300),
        _ => rng.below(1401),
    }
}

fn packet(rng: &mut Rng) -> Fields {
    let kind = rng.pick(&[0, 1, 2, 3, 4, 4, 5, 5, 5, 6]);
    let (a, b, len) = match kind {
        0 => (rng.number(), rng.number(), 1061),
        2 | 3 => (rng.number(), 0, 300),
        4 => (rng.number() >> 32, rng.number() >> 32, 0),
        5 => (0, 0, payload_len(rng)),
        _ => (0, 0, 0),
    };
    let bytes = rng.bytes(len);
    Fields { kind, a, b, bytes }
}

fn encode(rng: &mut Rng) -> Encode {
    let packet = packet(rng);
    let sequence = sequence(rng);
    let whole = match packet.kind {
        0 => 1078,
        2 | 3 => 17 + make::count_of(sequence) + 308,
        4 => 17 + make::count_of(sequence) + 8,
        _ => 17 + make::count_of(sequence) + packet.bytes.len(),
    };
    let room = match rng.below(10) {
        0..3 => whole,
        3..6 => whole + rng.below(20),
        6..8 => whole.saturating_sub(1 + rng.below(20)),
        8 => rng.below(whole),
        _ => 1400,
    };
    Encode {
        packet,
        protocol: rng.number(),
        key: (!rng.one_in(8)).then(|| rng.array()),
        sequence,
        out: make::pattern(room, rng.next()),
        refused: rng.one_in(8),
    }
}

fn challenge(rng: &mut Rng) -> Challenge {
    let at = if rng.one_in(2) { 0 } else { rng.below(40) };
    let room = at + 300 + if rng.one_in(2) { 0 } else { rng.below(40) };
    Challenge {
        client: rng.number(),
        user: rng.array(),
        sequence: sequence(rng),
        key: rng.array(),
        out: make::pattern(room, rng.next()),
        at,
        refused: rng.one_in(8),
    }
}

/// A token under a good tag, half of them damaged or opened with something else.
fn proof(rng: &mut Rng) -> Proof {
    let at = if rng.one_in(2) { 0 } else { rng.below(40) };
    let after = if rng.one_in(2) { 0 } else { rng.below(40) };
    let mut proof = Proof {
        token: make::pattern(at, rng.next()),
        at,
        sequence: sequence(rng),
        key: rng.array(),
    };
    let sealed = make::token(&rng.array(), proof.sequence, &proof.key);
    proof.token.extend_from_slice(&sealed);
    proof.token.extend(make::pattern(after, rng.next()));
    match rng.below(8) {
        0 => proof.token[at + rng.below(300)] ^= 1 << rng.below(8),
        1 => proof.key[rng.below(32)] ^= 1 << rng.below(8),
        2 => proof.sequence ^= 1 << rng.below(64),
        3 => rng.fill(&mut proof.token[at..at + 300]),
        _ => {}
    }
    proof
}
