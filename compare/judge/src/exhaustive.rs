//! What is short enough to try whole.

use crate::case::{Case, Decode, Encode, Fields, Window, HIGH};
use crate::judge::{Found, Judge};
use crate::make::{count_of, pattern, reached, Parts, FRESH};
use crate::rng::Rng;

type Tried = Result<(), Found>;

const KEY: [u8; 32] = *b"a key of thirty-two bytes, fixed";
const PROTOCOL: u64 = 0x1122_3344_5566_7788;

pub fn run(judge: &mut Judge, rng: &mut Rng) -> Tried {
    heads(judge, rng)?;
    datagrams(judge, rng)?;
    encodes(judge, rng)?;
    requests(judge, rng)?;
    bodies(judge, rng)?;
    windows(judge)
}

/// Around each power of 256, the first and the last ones.
fn sequences() -> Vec<u64> {
    let mut sequences: Vec<u64> = (0..=600).chain(u64::MAX - 599..=u64::MAX).collect();
    for bytes in 2..8 {
        let power = 1u64 << (8 * bytes);
        sequences.extend(power - 2..=power + 2);
    }
    sequences
}

fn heads(judge: &mut Judge, rng: &mut Rng) -> Tried {
    for byte in 0..=255 {
        judge.put(Case::Unprefix { byte })?;
        judge.put(Case::Additional {
            prefix: byte,
            protocol: PROTOCOL,
        })?;
    }
    for sequence in sequences() {
        for value in (0..16).chain([16, 0x25, 255]) {
            judge.put(Case::Prefix { value, sequence })?;
        }
        judge.put(Case::Private {
            protocol: sequence,
            expiry: PROTOCOL,
        })?;
        let source = sequence.to_le_bytes().to_vec();
        judge.put(Case::Sequence {
            source,
            at: 0,
            len: 8,
        })?;
    }
    for len in (0..20).chain([255, 256, usize::MAX]) {
        for room in 0..20 {
            for at in 0..=room {
                let source = rng.bytes(room);
                judge.put(Case::Sequence { source, at, len })?;
            }
        }
    }
    Ok(())
}

fn used() -> Box<Window> {
    reached(300, 3)
}

fn guards() -> [Option<Box<Window>>; 3] {
    [None, Some(Box::new(FRESH)), Some(used())]
}

/// Every prefix byte at every length to 64.
fn datagrams(judge: &mut Judge, rng: &mut Rng) -> Tried {
    for len in 0..=64 {
        for fill in [Some(0), Some(0xFF), None] {
            for prefix in 0..=255 {
                let mut datagram = match fill {
                    Some(byte) => vec![byte; len],
                    None => rng.bytes(len),
                };
                if let Some(first) = datagram.first_mut() {
                    *first = prefix;
                }
                every_way(judge, &datagram)?;
            }
        }
    }
    Ok(())
}

/// With and without a key, with no window, a fresh one and a used one.
fn every_way(judge: &mut Judge, datagram: &[u8]) -> Tried {
    for key in [None, Some(KEY)] {
        for window in guards() {
            judge.put(Case::Decode(Decode {
                datagram: datagram.to_vec(),
                protocol: PROTOCOL,
                key,
                window,
            }))?;
        }
    }
    Ok(())
}

/// One packet of each type, and a second payload that is empty.
fn packets(rng: &mut Rng) -> Vec<Fields> {
    let fields = |kind, a, b, bytes| Fields { kind, a, b, bytes };
    vec![
        fields(0, PROTOCOL, 100, rng.bytes(1061)),
        fields(1, 0, 0, Vec::new()),
        fields(2, 7, 0, rng.bytes(300)),
        fields(3, rng.next(), 0, rng.bytes(300)),
        fields(4, 3, 8, Vec::new()),
        fields(4, u32::MAX.into(), 0x0102_0304, Vec::new()),
        fields(5, 0, 0, Vec::new()),
        fields(5, 0, 0, rng.bytes(7)),
        fields(6, 0, 0, Vec::new()),
    ]
}

fn need(packet: &Fields, sequence: u64) -> usize {
    let sealed = 1 + count_of(sequence) + 16;
    match packet.kind {
        0 => 1078,
        2 | 3 => sealed + 308,
        4 => sealed + 8,
        5 => sealed + packet.bytes.len(),
        _ => sealed,
    }
}

fn encodes(judge: &mut Judge, rng: &mut Rng) -> Tried {
    for packet in packets(rng) {
        for sequence in sequences() {
            let need = need(&packet, sequence);
            let first = if need > 60 { need - 20 } else { 0 };
            for room in (0..4).chain(first..=need + 3).chain([1400]) {
                encode(judge, &packet, sequence, Some(KEY), room, false)?;
            }
            encode(judge, &packet, sequence, None, need, false)?;
            encode(judge, &packet, sequence, None, 0, false)?;
            encode(judge, &packet, sequence, Some(KEY), need + 1, true)?;
        }
    }
    Ok(())
}

fn encode(
    judge: &mut Judge,
    packet: &Fields,
    sequence: u64,
    key: Option<[u8; 32]>,
    room: usize,
    refused: bool,
) -> Tried {
    judge.put(Case::Encode(Encode {
        packet: packet.clone(),
        protocol: PROTOCOL,
        key,
        sequence,
        out: pattern(room, sequence.wrapping_add(room as u64)),
        refused,
    }))?;
    Ok(())
}

/// Requests around their length, with every count of sequence bytes in the prefix.
fn requests(judge: &mut Judge, rng: &mut Rng) -> Tried {
    for len in (1070..=1090).chain([1400, 1500]) {
        for count in 0..16 {
            let mut datagram = rng.bytes(len);
            datagram[0] = count << 4;
            every_way(judge, &datagram)?;
        }
    }
    Ok(())
}

/// Bodies too short, exact and longer under good tags, with every count that holds the sequence.
fn bodies(judge: &mut Judge, rng: &mut Rng) -> Tried {
    for (kind, least) in [(1, 0), (2, 308), (3, 308), (4, 8), (5, 0), (6, 0)] {
        let lengths = (0usize..20)
            .chain(least.max(2) - 2..least + 3)
            .chain([40, 400]);
        for len in lengths {
            for sequence in [0, 1, 255, 301, 1 << 32, HIGH - 1] {
                for count in count_of(sequence)..=8 {
                    let parts = Parts {
                        kind,
                        count,
                        sequence,
                        body: rng.bytes(len),
                    };
                    every_way(judge, &parts.seal(PROTOCOL, &KEY))?;
                }
            }
        }
    }
    Ok(())
}

/// Windows at their ends, and the packets that meet them.
fn windows(judge: &mut Judge) -> Tried {
    let highest = [
        0,
        1,
        255,
        256,
        257,
        300,
        511,
        512,
        1 << 32,
        (1 << 32) + 255,
        HIGH - 300,
        HIGH - 2,
        HIGH - 1,
    ];
    for highest in highest {
        for step in [1, 2, 3, 256] {
            let window = reached(highest, step);
            for sequence in around(highest) {
                meet(judge, &window, sequence)?;
            }
        }
    }
    for sequence in (0..=600).chain(HIGH - 2..=u64::MAX) {
        meet(judge, &Box::new(FRESH), sequence)?;
    }
    Ok(())
}

fn around(highest: u64) -> Vec<u64> {
    let mut sequences: Vec<u64> = (0..4).chain(HIGH - 2..=u64::MAX).collect();
    for centre in [0, 255, 256, 257] {
        for away in 0..=2 {
            sequences.push(highest.saturating_sub(centre + away));
            sequences.push(highest.saturating_sub(centre).saturating_add(away));
            sequences.push(highest.saturating_add(centre + away));
        }
    }
    sequences
}

fn meet(judge: &mut Judge, window: &Window, sequence: u64) -> Tried {
    judge.put(Case::Window {
        window: Box::new(*window),
        sequence,
    })?;
    let kind = 4 + (sequence % 3) as u8;
    let body = if kind == 4 { vec![1; 8] } else { Vec::new() };
    for window in [Some(Box::new(*window)), None] {
        judge.put(Case::Decode(Decode {
            datagram: Parts::new(kind, sequence, body.clone()).seal(PROTOCOL, &KEY),
            protocol: PROTOCOL,
            key: Some(KEY),
            window,
        }))?;
    }
    Ok(())
}
