//! Prefix byte, sequence bytes and additional data.

use oracle::calls as rust;
use oracle::calls::Answer;
use ours::calls;

use super::{did, ours_did, Beyond, Class, Did, Diff, Report, Verdict};
use crate::case::Call;

/// A type over 15 has no place in the prefix byte: ours keeps its low four bits, the Rust ors it in.
pub fn prefix(value: u8, sequence: u64) -> Report {
    let mut diff = Diff::default();
    let byte = rust::encode_prefix(value, sequence);
    let ours = calls::encode_prefix(value, sequence);
    let count = rust::sequence_bytes_required(sequence);
    let expected = if value < 16 {
        byte
    } else {
        (count as u8) << 4 | value & 15
    };
    diff.number("prefix byte", expected.into(), ours.into());
    let our_count = calls::sequence_bytes_required(sequence);
    diff.number("sequence bytes", count as u64, our_count as u64);
    write(sequence, &mut diff);
    if value < 16 {
        return Report::new(Did::Done, Did::Done, diff.verdict(Verdict::Equal));
    }
    let mut report = Report::new(Did::Done, Did::Done, diff.verdict(Verdict::Outside));
    report.beyond.push(Beyond {
        class: Class::WideType,
        did: Did::Done,
        changed: byte != ours,
    });
    report
}

/// Into eight bytes that show which of them were written.
fn write(sequence: u64, diff: &mut Diff) {
    let before = (!sequence).to_le_bytes();
    let (mut theirs, mut ours) = (before, before);
    let len = calls::write_sequence(&mut ours, sequence);
    match rust::write_sequence(&mut theirs, sequence) {
        Answer::Is(Ok(written)) => diff.number("bytes written", written as u64, len as u64),
        _ => diff.fail("the Rust did not write the sequence"),
    }
    diff.bytes("the sequence's bytes", &theirs, &ours);
}

pub fn unprefix(byte: u8) -> Report {
    let mut diff = Diff::default();
    let (kind, count) = rust::decode_prefix(byte);
    let ours = calls::decode_prefix(byte);
    diff.words("type and count", &[kind.into(), count as u64], &ours);
    Report::new(Did::Done, Did::Done, diff.verdict(Verdict::Equal))
}

pub fn sequence(source: &[u8], at: usize, len: usize) -> Report {
    let mut diff = Diff::default();
    let ours = calls::read_sequence(source, at, len);
    let answer = rust::read_sequence(&source[at..], len);
    let theirs = match &answer {
        Answer::Is(result) => did(Call::Sequence, result),
        Answer::Panicked { .. } => Did::Panicked,
    };
    if len > 8 {
        diff.words("refusal and number", &[4, 0], &ours);
        let verdict = diff.verdict(Verdict::Outside);
        let mut report = Report::new(theirs, ours_did(ours[0], &None), verdict);
        report.beyond.push(Beyond {
            class: Class::LongRead,
            did: theirs,
            changed: false,
        });
        return report;
    }
    match answer {
        Answer::Is(Ok(number)) => diff.words("refusal and number", &[0, number], &ours),
        Answer::Is(Err(_)) => diff.words("refusal and number", &[7, 0], &ours),
        Answer::Panicked { .. } => diff.fail("the Rust panicked in the domain"),
    }
    let verdict = diff.verdict(Verdict::Equal);
    Report::new(theirs, ours_did(ours[0], &None), verdict)
}

pub fn additional(prefix: u8, protocol: u64) -> Report {
    let mut diff = Diff::default();
    let ours = calls::additional_data(prefix, protocol);
    let theirs = rust::additional_data(prefix, protocol);
    diff.bytes("additional data", &theirs, &ours);
    Report::new(Did::Done, Did::Done, diff.verdict(Verdict::Equal))
}

pub fn private(protocol: u64, expiry: u64) -> Report {
    let mut diff = Diff::default();
    let ours = calls::token_additional_data(protocol, expiry);
    let theirs = rust::token_additional_data(protocol, expiry);
    diff.bytes("additional data of a private token", &theirs, &ours);
    Report::new(Did::Done, Did::Done, diff.verdict(Verdict::Equal))
}
