//! A packet encoded, and the host's answer.

use chacha20poly1305::watch::{refuse_seals, Asked};
use oracle::calls as rust;
use oracle::calls::Answer;
use ours::{Desk, Encoded, Packet, ASKED, DONE};

use super::{did, ours_did, refused_desk, Beyond, Class, Did, Diff, Report, Verdict};
use crate::case::{Call, Encode};

pub fn check(case: &Encode) -> Report {
    let (answer, ours) = both(case);
    let mut diff = Diff::default();
    diff.broken(&ours.broken);
    let our_did = ours_did(ours.number, &ours.broken);
    let Answer::Is(theirs) = answer else {
        diff.fail("the Rust panicked in the domain");
        let verdict = diff.verdict(Verdict::Equal);
        return Report::new(Did::Panicked, our_did, verdict);
    };
    compare(case, &theirs, &ours, &mut diff);
    let did = did(Call::Encode, &theirs.result);
    let mut report = Report::new(did, our_did, diff.verdict(Verdict::Equal));
    report.kind = Some(case.packet.kind);
    if did == Did::Refused(14) {
        report.beyond.push(Beyond {
            class: Class::ShortBuffer,
            did,
            changed: theirs.out != case.out,
        });
    }
    report
}

fn both(case: &Encode) -> (Answer<rust::Encoded>, Encoded) {
    let Encode {
        packet,
        protocol,
        sequence,
        out,
        ..
    } = case;
    let key = case.key.as_ref();
    let given = Packet {
        kind: packet.kind,
        a: packet.a,
        b: packet.b,
        bytes: &packet.bytes,
    };
    refuse_seals(case.refused);
    let theirs = rust::encode(out.clone(), packet, *protocol, key, *sequence);
    let ours = ours::encode(out.clone(), &given, *protocol, key, *sequence);
    refuse_seals(false);
    (theirs, ours)
}

fn compare(case: &Encode, theirs: &rust::Encoded, ours: &Encoded, diff: &mut Diff) {
    let number = match did(Call::Encode, &theirs.result) {
        Did::Refused(number) => number,
        _ => 0,
    };
    let length = theirs.result.unwrap_or(0);
    diff.number("refusal", number.into(), ours.number);
    diff.number("length", length as u64, ours.length);
    // Document 01 wants the buffer of a 14 as it was; the Rust has begun to write.
    let out = if number == 14 { &case.out } else { &theirs.out };
    diff.bytes("buffer", out, &ours.out);
    if theirs.asked.len() > 1 {
        diff.fail("the Rust asked its cipher twice");
    }
    let asked = theirs.asked.first();
    let start = asked.map(|asked| asked.place - theirs.out.as_ptr() as usize);
    diff.ask(asked.zip(start), ours.ask.as_ref());
    diff.told(asked, &ours.told);
    let last = match number {
        0 => done_desk(length),
        number => refused_desk(number),
    };
    diff.desk("desk at the end", &last, &ours.last);
    match asked.zip(start) {
        Some((asked, start)) => between(case, theirs, asked, start, ours, diff),
        None => diff.desk("desk after the call", &last, &ours.first),
    }
}

/// At the ask the packet stands from the start, tag places excepted, and nothing else is written.
fn between(
    case: &Encode,
    theirs: &rust::Encoded,
    asked: &Asked,
    start: usize,
    ours: &Encoded,
    diff: &mut Diff,
) {
    let text_end = start + asked.text.len();
    let desk = asked_desk(start, text_end + 16, case.out.len(), 22);
    diff.desk("desk after the call", &desk, &ours.first);
    let Some(at_ask) = &ours.at_ask else {
        return;
    };
    let mut expected = case.out.clone();
    expected[..start].copy_from_slice(&theirs.out[..start]);
    expected[start..text_end].copy_from_slice(&asked.text);
    diff.bytes("buffer at the ask", &expected, at_ask);
}

/// The desk of an ask to seal from `start` to `end` of a buffer with `room`.
pub fn asked_desk(start: usize, end: usize, room: usize, size: usize) -> Desk {
    let mut desk = [0; 16];
    desk[0] = ASKED;
    let ask = [1, size, start, end, 1, 0, end, room];
    desk[8..].copy_from_slice(&ask.map(|word| word as u64));
    desk
}

pub fn done_desk(length: usize) -> Desk {
    let mut desk = [0; 16];
    desk[0] = DONE;
    desk[1] = length as u64;
    desk
}
