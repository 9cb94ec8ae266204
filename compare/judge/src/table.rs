//! How often each branch was reached on either side, and what the Rust does outside the domain.

use std::collections::BTreeMap;

use crate::case::{Call, Case};
use crate::check::{Beyond, Did, Report, Verdict};
use crate::wanted::wanted;
use crate::words::{answer, name};

pub type Row = (Call, Did, Option<u8>);

/// What was counted of a class, and its least input.
pub struct Seen {
    pub count: u64,
    pub least: Case,
    size: usize,
}

#[derive(Default)]
pub struct Table {
    pub inside: u64,
    pub outside: u64,
    ours: BTreeMap<Row, u64>,
    /// The Rust's answers in the domain.
    rust: BTreeMap<Row, u64>,
    /// The Rust's answers where ours gave the row's outside the domain.
    instead: BTreeMap<Row, BTreeMap<Did, u64>>,
    pub beyond: BTreeMap<Beyond, Seen>,
}

impl Table {
    pub fn count(&mut self, case: &Case, report: &Report) {
        let call = case.call();
        let ours = (call, report.ours, report.kind);
        *self.ours.entry(ours).or_default() += 1;
        if report.verdict == Verdict::Outside {
            self.outside += 1;
            let instead = self.instead.entry(ours).or_default();
            *instead.entry(report.rust).or_default() += 1;
        } else {
            self.inside += 1;
            let rust = (call, report.rust, report.kind);
            *self.rust.entry(rust).or_default() += 1;
        }
        for beyond in &report.beyond {
            self.note(*beyond, case);
        }
    }

    pub fn rust_rows(&self) -> impl Iterator<Item = &Row> {
        self.rust.keys()
    }

    fn note(&mut self, beyond: Beyond, case: &Case) {
        let size = size(case);
        match self.beyond.get_mut(&beyond) {
            Some(seen) => {
                seen.count += 1;
                if size < seen.size {
                    seen.size = size;
                    seen.least = case.clone();
                }
            }
            None => {
                let least = case.clone();
                let seen = Seen {
                    count: 1,
                    least,
                    size,
                };
                self.beyond.insert(beyond, seen);
            }
        }
    }

    /// The rows that must not be empty and are, in words.
    pub fn unreached(&self) -> Vec<String> {
        let mut missing = Vec::new();
        for row in wanted() {
            let (call, did, kind) = row;
            let outside = call == Call::Decode && matches!(did, Did::Refused(4 | 5 | 7));
            let beside = self.instead.contains_key(&row);
            for (side, reached) in [
                ("ours", self.ours.contains_key(&row)),
                (
                    "the Rust",
                    outside || beside || self.rust.contains_key(&row),
                ),
            ] {
                if !reached {
                    let kind = kind.map_or(String::new(), |kind| format!(", {}", name(call, kind)));
                    missing.push(format!(
                        "{}: {}{kind}: {side}",
                        call.name(),
                        answer(call, did)
                    ));
                }
            }
        }
        missing
    }

    pub fn print(&self) {
        println!(
            "{:<11}{:<10}{:<14}{:>9}{:>11}",
            "call", "answer", "type", "ours", "Rust"
        );
        let mut rows: Vec<&Row> = self.ours.keys().chain(self.rust.keys()).collect();
        rows.sort();
        rows.dedup();
        for row in rows {
            let (call, did, kind) = *row;
            let ours = self.ours.get(row).copied().unwrap_or(0);
            let rust = self.rust.get(row).copied().unwrap_or(0);
            let kind = kind.map_or("", |kind| name(call, kind));
            let answer = answer(call, did);
            print!(
                "{:<11}{answer:<10}{kind:<14}{ours:>9}{rust:>11}",
                call.name()
            );
            println!("{}", self.instead_text(row));
        }
    }

    fn instead_text(&self, row: &Row) -> String {
        let Some(instead) = self.instead.get(row) else {
            return String::new();
        };
        let did = instead
            .iter()
            .map(|(did, count)| format!("{} {count}", answer(row.0, *did)));
        format!("  instead: {}", did.collect::<Vec<_>>().join(", "))
    }
}

/// Shorter inputs count as less, and of two equally short ones the one with less in its window.
fn size(case: &Case) -> usize {
    match case {
        Case::Prefix { value, sequence } => {
            usize::from(*value) + 1000 * (64 - sequence.leading_zeros() as usize)
        }
        Case::Sequence { source, at, len } => len.saturating_add(source.len() + at),
        Case::Window { window, .. } => places(window),
        Case::Encode(case) => {
            let bits = 64 - case.sequence.leading_zeros() as usize;
            1000 * case.out.len() + 100 * case.packet.bytes.len() + bits
        }
        Case::Decode(case) => 1000 * case.datagram.len() + case.window.as_deref().map_or(0, places),
        Case::Entries(case) => case.table.size(),
        Case::Slots(case) => case.table.size(),
        Case::Hosts(case) => case.list.len() + case.ours.len(),
        Case::Moment(moment) => {
            let words = moment.times().map(|time| time.words()).concat();
            words
                .iter()
                .map(|word| 64 - word.leading_zeros() as usize)
                .sum()
        }
        Case::Server(case) => case.size(),
        _ => 0,
    }
}

fn places(window: &crate::case::Window) -> usize {
    let used = window[1..].iter().filter(|place| **place != u64::MAX);
    2 * used.count() + usize::from(window[0] != 0)
}
