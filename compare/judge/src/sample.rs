//! Some thousand of the Rust's answers in the domain, as lines of text for a program without a cipher.

use std::collections::BTreeMap;
use std::fs;

use crate::case::{Call, Case, Window, EMPTY};
use crate::check::{Did, Report, Verdict};
use crate::lines;
use crate::make::count_of;
use crate::table::{Row, Table};

/// What two cases share that are alike enough for one of them to stand for both.
#[derive(Debug, Clone, Copy, PartialEq, Eq, PartialOrd, Ord)]
struct Sort {
    call: Call,
    did: Did,
    kind: Option<u8>,
    length: Length,
    fine: Option<(usize, u8, u8)>,
    /// The exhaustive cases first, then the drawn ones.
    part: u8,
}

#[derive(Debug, Clone, Copy, PartialEq, Eq, PartialOrd, Ord)]
enum Length {
    Short,
    Bytes,
    Words,
}

#[derive(Default)]
pub struct Sample {
    part: u8,
    taken: BTreeMap<Sort, usize>,
    lines: Vec<String>,
    bytes: usize,
}

impl Sample {
    pub fn next_part(&mut self) {
        self.part += 1;
    }

    /// Takes the case if there are not enough of its sort yet.
    pub fn offer(&mut self, case: &Case, report: &Report) {
        if report.verdict != Verdict::Equal {
            return;
        }
        let length = length(case);
        let short = length == Length::Short;
        let sort = Sort {
            call: case.call(),
            did: report.rust,
            kind: report.kind.or(value(case)),
            length,
            fine: short.then(|| fine(case, report.rust)),
            part: self.part,
        };
        let quota = quota(case, length);
        let taken = self.taken.entry(sort).or_default();
        if *taken >= quota {
            return;
        }
        if let Some(line) = lines::line(case) {
            *taken += 1;
            self.bytes += line.len() + 1;
            self.lines.push(line);
        }
    }

    /// The rows of the Rust's table that no line shows, in words. A token whose seal is refused has no
    /// line: it is answered by the same call as a packet's.
    pub fn uncovered(&self, table: &Table) -> Vec<String> {
        let shown = |(call, did, kind): &Row| {
            self.taken.iter().any(|(sort, taken)| {
                let alike = kind.is_none() || sort.kind == *kind;
                *taken > 0 && sort.call == *call && sort.did == *did && alike
            })
        };
        let lined =
            |row: &&Row| row.0.is_sampled() && **row != (Call::Challenge, Did::Refused(24), None);
        let missing = table.rust_rows().filter(lined).filter(|row| !shown(row));
        missing
            .map(|row| format!("the sample has no line of {row:?}"))
            .collect()
    }

    /// Writes the file and says how much that is.
    pub fn write(&self, file: &str) -> Result<String, String> {
        let longest = self.lines.iter().map(String::len).max().unwrap_or(0);
        let mut text = self.lines.join("\n");
        text.push('\n');
        fs::write(file, text).map_err(|error| format!("{file}: {error}"))?;
        let (lines, bytes) = (self.lines.len(), self.bytes);
        Ok(format!(
            "sample: {lines} lines, {bytes} bytes, the longest {longest} characters"
        ))
    }
}

/// Stands for the type where a call has none and yet goes by a small number.
fn value(case: &Case) -> Option<u8> {
    match case {
        Case::Prefix { value, .. } => Some(*value),
        Case::Unprefix { byte } => Some(*byte),
        Case::Sequence { len, .. } => Some(*len as u8),
        Case::Decode(case) => case.prefix().map(|(kind, _)| kind),
        _ => None,
    }
}

fn places(window: &Window) -> usize {
    window[1..].iter().filter(|place| **place != EMPTY).count()
}

/// How long the line would be: by its window, by its bytes, or not.
fn length(case: &Case) -> Length {
    let (bytes, window) = match case {
        Case::Encode(case) => (case.out.len() + case.packet.bytes.len(), None),
        Case::Decode(case) => (case.datagram.len(), case.window.as_deref()),
        Case::Window { window, .. } => (0, Some(&**window)),
        Case::Challenge(_) | Case::Proof(_) => (300, None),
        _ => (0, None),
    };
    match (bytes, window.map_or(0, places)) {
        (_, 9..) => Length::Words,
        (110.., _) => Length::Bytes,
        _ => Length::Short,
    }
}

/// How many lines of a sort are enough: of long ones few, so that the whole stays small, and none
/// where the length adds nothing.
fn quota(case: &Case, length: Length) -> usize {
    match (case, length) {
        (Case::Challenge(_), _) => 40,
        (Case::Proof(_), _) => 20,
        (Case::Window { .. }, Length::Words) => 2,
        (Case::Decode(case), Length::Words) => match case.prefix() {
            Some((4..=6, _)) => 1,
            _ => 0,
        },
        (Case::Encode(case), Length::Bytes) => by_bytes(case.packet.kind),
        (Case::Decode(case), Length::Bytes) => by_bytes(case.prefix().map_or(0, |(kind, _)| kind)),
        (Case::Additional { .. } | Case::Private { .. }, _) => 20,
        (Case::Sequence { .. }, _) => 6,
        (Case::Window { .. }, _) => 2,
        _ => 1,
    }
}

fn by_bytes(kind: u8) -> usize {
    match kind {
        0 => 2,
        5 => 1,
        2 | 3 => 3,
        _ => 0,
    }
}

/// Of a short line: count of sequence bytes, sort of window, sort of length; nothing where the
/// answer does not hang on them.
fn fine(case: &Case, did: Did) -> (usize, u8, u8) {
    match case {
        Case::Prefix { sequence, .. } => (count_of(*sequence), 0, 0),
        Case::Window { window, sequence } => (
            count_of(*sequence),
            window_sort(window),
            distance_sort(window[0], *sequence),
        ),
        Case::Encode(case) => {
            let bytes = length_sort(case.packet.bytes.len());
            let room = (case.out.len() % 2) as u8;
            match did {
                Did::Refused(3) => (0, bytes, room),
                Did::Refused(24) => (count_of(case.sequence), bytes, 0),
                _ => (count_of(case.sequence), bytes, room),
            }
        }
        Case::Decode(case) => {
            let count = case.prefix().map_or(0, |(_, count)| count);
            let window = case.window.as_deref().map_or(0, window_sort);
            let length = length_sort(case.datagram.len());
            match (did, case.prefix()) {
                (Did::Refused(1 | 2), _) => (0, 0, length),
                (Did::Refused(3), _) | (_, Some((0, _))) => (0, window, length),
                (Did::Refused(8 | 9), _) => (count, window.min(1), 0),
                _ => (count, window, length),
            }
        }
        _ => (0, 0, 0),
    }
}

fn window_sort(window: &Window) -> u8 {
    match places(window) {
        0 if window[0] == 0 => 1,
        0..3 => 2,
        _ => 3,
    }
}

/// Where the sequence is, seen from the highest.
fn distance_sort(highest: u64, sequence: u64) -> u8 {
    match (sequence.checked_sub(highest), highest.checked_sub(sequence)) {
        (Some(0), _) => 0,
        (Some(1..256), _) => 1,
        (Some(_), _) => 2,
        (_, Some(1..255)) => 3,
        (_, Some(255)) => 4,
        (_, Some(256)) => 5,
        _ => 6,
    }
}

fn length_sort(len: usize) -> u8 {
    match len {
        0 => 0,
        1..18 => 1,
        18..27 => 2,
        27..40 => 3,
        _ => 4,
    }
}

#[cfg(test)]
#[path = "sample_tests.rs"]
mod tests;
