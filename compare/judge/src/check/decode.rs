//! A datagram decoded, and the host's answer.

use chacha20poly1305::watch::Asked;
use oracle::calls as rust;
use oracle::calls::{Answer, Fields};
use ours::{Decoded, Desk, ASKED, DONE};

use super::{did, ours_did, refused_desk, Beyond, Did, Diff, Report, Verdict};
use crate::case::{Call, Decode, Window};
use crate::domain;

pub fn check(case: &Decode) -> Report {
    let key = case.key.as_ref();
    let window = case.window.as_deref();
    let answer = rust::decode(case.datagram.clone(), case.protocol, key, window);
    let ours = ours::decode(case.datagram.clone(), case.protocol, key, window);
    let mut diff = Diff::default();
    diff.broken(&ours.broken);
    let mut report = match domain::outside(case) {
        Some((number, class)) => {
            unmoved(case, number, &ours, &mut diff);
            let (did, after) = settled(&answer);
            let verdict = diff.verdict(Verdict::Outside);
            let mut report = Report::new(did, ours_did(ours.number, &ours.broken), verdict);
            report.beyond.push(Beyond {
                class,
                did,
                changed: after != window,
            });
            report
        }
        None => inside(case, answer, &ours, diff),
    };
    report.kind = case
        .prefix()
        .map(|(kind, _)| kind)
        .filter(|_| typed(&report));
    report
}

/// Whether the type took part: refusals 1 and 2 come before it counts.
fn typed(report: &Report) -> bool {
    !matches!(report.ours, Did::Refused(1 | 2))
}

fn settled(answer: &Answer<rust::Decoded>) -> (Did, Option<&Window>) {
    match answer {
        Answer::Is(theirs) => (did(Call::Decode, &theirs.result), theirs.window.as_ref()),
        Answer::Panicked { window, .. } => (Did::Panicked, window.as_ref()),
    }
}

/// Refused by this number, and nothing asked or changed.
fn unmoved(case: &Decode, number: u8, ours: &Decoded, diff: &mut Diff) {
    diff.number("refusal", number.into(), ours.number);
    diff.bytes("datagram", &case.datagram, &ours.datagram);
    diff.window("window", case.window.as_deref(), ours.window.as_ref());
    diff.ask(None, ours.ask.as_ref());
    diff.told(None, &ours.told);
    diff.desk("desk after the call", &refused_desk(number), &ours.first);
    diff.desk("desk at the end", &refused_desk(number), &ours.last);
}

fn inside(case: &Decode, answer: Answer<rust::Decoded>, ours: &Decoded, mut diff: Diff) -> Report {
    let Answer::Is(theirs) = answer else {
        diff.fail("the Rust panicked in the domain");
        let verdict = diff.verdict(Verdict::Equal);
        return Report::new(Did::Panicked, ours_did(ours.number, &ours.broken), verdict);
    };
    compare(case, &theirs, ours, &mut diff);
    let did = did(Call::Decode, &theirs.result);
    let verdict = diff.verdict(Verdict::Equal);
    let mut report = Report::new(did, ours_did(ours.number, &ours.broken), verdict);
    report.window = theirs.window.map(Box::new);
    report
}

fn compare(case: &Decode, theirs: &rust::Decoded, ours: &Decoded, diff: &mut Diff) {
    let number = match did(Call::Decode, &theirs.result) {
        Did::Refused(number) => number,
        _ => 0,
    };
    diff.number("refusal", number.into(), ours.number);
    diff.bytes("datagram", &theirs.datagram, &ours.datagram);
    diff.window("window", theirs.window.as_ref(), ours.window.as_ref());
    packet(theirs, ours, diff);
    if theirs.asked.len() > 1 {
        diff.fail("the Rust asked its cipher twice");
    }
    let asked = theirs.asked.first();
    let start = asked.map(|asked| asked.place - theirs.datagram.as_ptr() as usize);
    diff.ask(asked.zip(start), ours.ask.as_ref());
    diff.told(asked, &ours.told);
    let last = match &theirs.result {
        Ok((sequence, fields)) => read_desk(case, *sequence, fields, start),
        Err(_) => refused_desk(number),
    };
    diff.desk("desk at the end", &last, &ours.last);
    match asked.zip(start) {
        Some((asked, start)) => between(case, asked, start, ours, diff),
        None => diff.desk("desk after the call", &last, &ours.first),
    }
}

fn packet(theirs: &rust::Decoded, ours: &Decoded, diff: &mut Diff) {
    match (&theirs.result, &ours.read) {
        (Ok((sequence, fields)), Some(read)) => {
            diff.number("sequence", *sequence, read.sequence);
            diff.number("type", fields.kind.into(), read.kind);
            diff.number("first number", fields.a, read.a);
            diff.number("second number", fields.b, read.b);
            diff.bytes("the packet's bytes", &fields.bytes, &read.bytes);
        }
        (Err(_), Some(_)) => diff.fail("ours read a packet"),
        // The refusal's number says it already.
        (_, None) => {}
    }
}

/// Between call and answer neither the datagram nor the window may have changed.
fn between(case: &Decode, asked: &Asked, start: usize, ours: &Decoded, diff: &mut Diff) {
    let desk = asked_desk(case, asked, start);
    diff.desk("desk after the call", &desk, &ours.first);
    if let Some((datagram, window)) = &ours.at_ask {
        diff.bytes("datagram at the ask", &case.datagram, datagram);
        diff.window("window at the ask", case.window.as_deref(), window.as_ref());
    }
}

fn asked_desk(case: &Decode, asked: &Asked, start: usize) -> Desk {
    let (start, len) = (start as u64, case.datagram.len() as u64);
    let kind = case.prefix().map_or(0, |(kind, _)| kind);
    let sequence = u64::from_le_bytes(asked.nonce[4..12].try_into().expect("eight bytes"));
    let mut desk = [0; 16];
    desk[0] = ASKED;
    let ask = [0, 22, start, len, 1 + u64::from(kind), sequence, start, len];
    desk[8..].copy_from_slice(&ask);
    desk
}

/// A body stands from the part's start to its tag; a request's from after the prefix to the end.
fn read_desk(case: &Decode, sequence: u64, fields: &Fields, start: Option<usize>) -> Desk {
    let len = case.datagram.len();
    let (start, end) = start.map_or((1, len), |start| (start, len - 16));
    let mut desk = [0; 16];
    desk[0] = DONE;
    let kind = u64::from(fields.kind);
    let read = [sequence, kind, fields.a, fields.b, start as u64, end as u64];
    desk[2..8].copy_from_slice(&read);
    desk
}
