//! Makes a case smaller as long as something still holds of it.

use crate::case::{Case, Decode, Encode, Window, EMPTY};
use crate::make::{Parts, FRESH};

/// The smallest case found by taking the first simpler one for which `holds`, again and again.
pub fn shrink(mut case: Case, holds: impl Fn(&Case) -> bool) -> Case {
    // A bound on the rounds, so that a pair of cases that lead to each other ends too.
    for _ in 0..10_000 {
        match simpler(&case).into_iter().find(|simple| holds(simple)) {
            Some(simple) => case = simple,
            None => break,
        }
    }
    case
}

fn simpler(case: &Case) -> Vec<Case> {
    match case {
        Case::Prefix { value, sequence } => {
            let (value, sequence) = (*value, *sequence);
            let by_value = numbers(value.into()).map(|value| Case::Prefix {
                value: value as u8,
                sequence,
            });
            let by_sequence = numbers(sequence).map(|sequence| Case::Prefix { value, sequence });
            by_value.chain(by_sequence).collect()
        }
        Case::Unprefix { byte } => numbers(u64::from(*byte))
            .map(|byte| Case::Unprefix { byte: byte as u8 })
            .collect(),
        Case::Sequence { source, at, len } => sequences(source, *at, *len),
        Case::Additional { prefix, protocol } => {
            let (prefix, protocol) = (*prefix, *protocol);
            let by_protocol =
                numbers(protocol).map(|protocol| Case::Additional { prefix, protocol });
            let by_prefix = numbers(prefix.into()).map(|prefix| Case::Additional {
                prefix: prefix as u8,
                protocol,
            });
            by_protocol.chain(by_prefix).collect()
        }
        Case::Private { protocol, expiry } => {
            let (protocol, expiry) = (*protocol, *expiry);
            let by_protocol = numbers(protocol).map(|protocol| Case::Private { protocol, expiry });
            let by_expiry = numbers(expiry).map(|expiry| Case::Private { protocol, expiry });
            by_protocol.chain(by_expiry).collect()
        }
        Case::Window { window, sequence } => window_cases(window, *sequence),
        Case::Encode(case) => encodes(case).into_iter().map(Case::Encode).collect(),
        Case::Decode(case) => decodes(case).into_iter().map(Case::Decode).collect(),
        Case::Challenge(_) | Case::Proof(_) => crate::shrink_tokens::simpler(case),
        Case::Entries(_) | Case::Slots(_) | Case::Hosts(_) | Case::Moment(_) => {
            crate::tables::simpler(case)
        }
        Case::Server(case) => {
            let tries = crate::servers::simpler(case).into_iter();
            tries.map(Case::Server).collect()
        }
    }
}

/// Smaller numbers, the smallest first.
pub fn numbers(number: u64) -> impl Iterator<Item = u64> {
    let tries = [0, number >> 8, number / 2, number.saturating_sub(1)];
    tries.into_iter().filter(move |smaller| *smaller < number)
}

/// Shorter bytes, from either end, and then as many with zeros.
pub fn shorter(bytes: &[u8]) -> Vec<Vec<u8>> {
    let len = bytes.len();
    let mut tries = Vec::new();
    for cut in [len / 2, 16, 4, 1] {
        if 0 < cut && cut <= len {
            tries.push(bytes[..len - cut].to_vec());
            tries.push(bytes[cut..].to_vec());
        }
    }
    tries.extend(zeroed(bytes));
    tries
}

/// The same length with runs of bytes set to zero, the longest runs first.
pub fn zeroed(bytes: &[u8]) -> Vec<Vec<u8>> {
    let mut tries = Vec::new();
    for run in [bytes.len(), 64, 8, 1] {
        for at in (0..bytes.len()).step_by(run.max(1)) {
            let end = (at + run).min(bytes.len());
            if bytes[at..end].iter().any(|byte| *byte != 0) {
                let mut less = bytes.to_vec();
                less[at..end].fill(0);
                tries.push(less);
            }
        }
    }
    tries
}

fn sequences(source: &[u8], at: usize, len: usize) -> Vec<Case> {
    let mut tries = Vec::new();
    if at > 0 {
        let source = source[at..].to_vec();
        tries.push(Case::Sequence { source, at: 0, len });
    }
    let sources = shorter(source).into_iter().filter(|less| less.len() >= at);
    tries.extend(sources.map(|source| Case::Sequence { source, at, len }));
    tries.extend(numbers(len as u64).map(|len| Case::Sequence {
        source: source.to_vec(),
        at,
        len: len as usize,
    }));
    tries
}

/// The fresh window, fewer used places, smaller words.
fn windows(window: &Window) -> Vec<Window> {
    let mut tries = Vec::new();
    if *window != FRESH {
        tries.push(FRESH);
    }
    for run in [128, 16, 1] {
        for at in (1..257).step_by(run) {
            let mut less = *window;
            less[at..at + run].fill(EMPTY);
            if less != *window {
                tries.push(less);
            }
        }
    }
    for at in (0..257).filter(|at| *at == 0 || window[*at] != EMPTY) {
        for number in numbers(window[at]) {
            let mut less = *window;
            less[at] = number;
            tries.push(less);
        }
    }
    tries
}

/// The window and the sequence lowered together by whole rounds of places, so that they still meet.
fn lowered(window: &Window, sequence: u64) -> impl Iterator<Item = (Box<Window>, u64)> + '_ {
    let rounds = sequence / 256;
    let by = numbers(rounds).map(move |left| 256 * (rounds - left));
    by.map(move |by| {
        let lower = |word| match word {
            EMPTY => EMPTY,
            word => u64::saturating_sub(word, by),
        };
        (Box::new(window.map(lower)), sequence - by)
    })
}

fn window_cases(window: &Window, sequence: u64) -> Vec<Case> {
    let together = lowered(window, sequence);
    let together = together.map(|(window, sequence)| Case::Window { window, sequence });
    let by_window = windows(window).into_iter().map(|window| Case::Window {
        window: Box::new(window),
        sequence,
    });
    let by_sequence = numbers(sequence).map(|sequence| Case::Window {
        window: Box::new(*window),
        sequence,
    });
    together.chain(by_window).chain(by_sequence).collect()
}

fn encodes(case: &Encode) -> Vec<Encode> {
    let mut tries = Vec::new();
    let mut with = |change: &dyn Fn(&mut Encode)| {
        let mut less = case.clone();
        change(&mut less);
        if less != *case {
            tries.push(less);
        }
    };
    with(&|less| less.refused = false);
    with(&|less| less.key = less.key.map(|_| [0; 32]));
    with(&|less| less.protocol = 0);
    for sequence in numbers(case.sequence) {
        with(&|less| less.sequence = sequence);
    }
    for number in numbers(case.packet.a) {
        with(&|less| less.packet.a = number);
    }
    for number in numbers(case.packet.b) {
        with(&|less| less.packet.b = number);
    }
    // Only a payload can be shorter, and it is best cut together with its buffer.
    let payload = case.packet.kind == 5;
    let bytes = if payload { shorter } else { zeroed };
    for bytes in bytes(&case.packet.bytes) {
        let cut = case.packet.bytes.len() - bytes.len();
        if cut > 0 && cut <= case.out.len() {
            with(&|less| {
                less.out.truncate(case.out.len() - cut);
                less.packet.bytes = bytes.clone();
            });
        }
        with(&|less| less.packet.bytes = bytes.clone());
    }
    for out in shorter(&case.out) {
        with(&|less| less.out = out.clone());
    }
    tries
}

fn decodes(case: &Decode) -> Vec<Decode> {
    let mut tries = resealed(case);
    let mut with = |change: &dyn Fn(&mut Decode)| {
        let mut less = case.clone();
        change(&mut less);
        if less != *case {
            tries.push(less);
        }
    };
    with(&|less| less.window = None);
    if let Some(window) = &case.window {
        for window in windows(window) {
            with(&|less| less.window = Some(Box::new(window)));
        }
    }
    with(&|less| less.key = less.key.map(|_| [0; 32]));
    with(&|less| less.protocol = 0);
    for datagram in shorter(&case.datagram) {
        with(&|less| less.datagram = datagram.clone());
    }
    tries
}

/// Smaller packets under good tags, where the tag is good: a sealed datagram does not get smaller itself.
fn resealed(case: &Decode) -> Vec<Decode> {
    let opened = case.key.and_then(|key| {
        let parts = Parts::open(&case.datagram, case.protocol, &key)?;
        Some((key, parts))
    });
    let Some((key, parts)) = opened else {
        return Vec::new();
    };
    let seal = |parts: &Parts, protocol, key, window: Option<Box<Window>>| Decode {
        datagram: parts.seal(protocol, &key),
        protocol,
        key: Some(key),
        window,
    };
    let mut tries = vec![
        seal(&parts, case.protocol, [0; 32], case.window.clone()),
        seal(&parts, 0, key, case.window.clone()),
    ];
    for (parts, window) in smaller(&parts, &case.window) {
        tries.push(seal(&parts, case.protocol, key, window));
    }
    tries.retain(|less| less != case);
    tries
}

/// Lower sequences, with the window as it is and lowered too, fewer sequence bytes, shorter bodies.
fn smaller(
    parts: &Parts,
    window: &Option<Box<Window>>,
) -> impl Iterator<Item = (Parts, Option<Box<Window>>)> {
    let at = |sequence| Parts::new(parts.kind, sequence, parts.body.clone());
    let mut tries = Vec::new();
    for sequence in numbers(parts.sequence) {
        tries.push((at(sequence), window.clone()));
    }
    for (window, sequence) in window
        .iter()
        .flat_map(|window| lowered(window, parts.sequence))
    {
        tries.push((at(sequence), Some(window)));
    }
    tries.push((at(parts.sequence), window.clone()));
    for body in shorter(&parts.body) {
        let less = Parts {
            body,
            ..parts.clone()
        };
        tries.push((less, window.clone()));
    }
    tries.into_iter()
}

#[cfg(test)]
#[path = "shrink_tests.rs"]
mod tests;
