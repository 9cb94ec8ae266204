//! One use of a token, against all entries.

use std::time::Duration;

use oracle::tables as rust;
use ours::tables;

use super::{answered, yes, Beyond, Class, Diff, Report, Verdict};
use crate::tables::{socket, write_entry, Entries, Entry, Mark, ENTRIES};

/// The sorts of answer, which must all be met.
pub const ONE_MATCH: u8 = 0;
pub const LAST_MATCH: u8 = 1;
pub const EMPTY_PLACE: u8 = 2;
pub const LOWEST: u8 = 3;
pub const FIRST_LOWEST: u8 = 4;

/// What the Rust answers, and the places that it has written, which no use leaves as it was.
struct Theirs {
    allowed: bool,
    written: Vec<usize>,
}

pub fn check(case: &Entries) -> Report {
    let places = case.table.all();
    let mut diff = Diff::default();
    let theirs = theirs(&places, &case.used, &mut diff);
    let before = crate::tables::entry_bytes(&places);
    let mut expected = before.clone();
    for at in &theirs.written {
        write_entry(&mut expected, *at, &case.used);
    }
    let mut ours = before;
    let Entry { time, address, mac } = &case.used;
    let number = tables::find_or_add_entry(&mut ours, time.words(), address, mac);
    diff.number("allowed", theirs.allowed.into(), number.into());
    diff.table("the entries after it", &expected, &ours);
    let class = class(&places, &case.used);
    let verdict = class.map_or(Verdict::Equal, |_| Verdict::Outside);
    let did = yes(theirs.allowed);
    let mut report = Report::new(did, answered(number), diff.verdict(verdict));
    report.kind = Some(sort(&places, &case.used, &theirs.written));
    report.written = theirs.written.first().copied();
    report.beyond.extend(class.map(|class| Beyond {
        class,
        did,
        changed: class == Class::FewEntries && !theirs.written.is_empty(),
    }));
    report
}

/// Fewer places than the Rust has, or nanoseconds that make a second, which a `Duration` never has.
fn class(places: &[Mark], used: &Entry) -> Option<Class> {
    let stored = places.iter().filter(|place| place.mark != 0);
    let mut times = stored.map(|place| place.entry.time).chain([used.time]);
    if times.any(|time| !time.is_proper()) {
        Some(Class::LongNanos)
    } else if places.len() < ENTRIES {
        Some(Class::FewEntries)
    } else {
        None
    }
}

fn given(entry: &Entry) -> rust::Entry {
    let time = entry.time.duration().expect("in the range of a clock");
    let address = socket(&entry.address).expect("well-formed");
    (time, address, entry.mac)
}

/// Where ours has fewer places, the rest of the Rust's are used, by another token, and as late as can
/// be, so that no search takes one of them.
fn theirs(places: &[Mark], used: &Entry, diff: &mut Diff) -> Theirs {
    let new = given(used);
    let other = (Duration::MAX, new.1, new.2.map(|byte| !byte));
    let stored = |at: usize| match places.get(at) {
        Some(place) if place.mark == 0 => None,
        Some(place) => Some(given(&place.entry)),
        None => Some(other),
    };
    let before: Vec<Option<rust::Entry>> = (0..ENTRIES).map(stored).collect();
    let mut entries = rust::Entries::new(before.iter().copied());
    let allowed = entries.find_or_add(new);
    let mut written = Vec::new();
    for (at, (before, after)) in before.iter().zip(entries.all()).enumerate() {
        if *before != after {
            written.push(at);
            if after != Some(new) || at >= places.len() {
                diff.fail("the Rust wrote something else, or past the end");
            }
        }
    }
    written.retain(|at| *at < places.len());
    Theirs { allowed, written }
}

/// By what the answer came about, as the places tell it.
fn sort(places: &[Mark], used: &Entry, written: &[usize]) -> u8 {
    let stored = || places.iter().filter(|place| place.mark != 0);
    match written {
        [] => match stored().filter(|place| place.entry.mac == used.mac).count() {
            1 => ONE_MATCH,
            _ => LAST_MATCH,
        },
        [at, ..] if places[*at].mark == 0 => EMPTY_PLACE,
        [at, ..] => {
            let lowest = places[*at].entry.time.whole();
            match stored()
                .filter(|place| place.entry.time.whole() == lowest)
                .count()
            {
                1 => LOWEST,
                _ => FIRST_LOWEST,
            }
        }
    }
}
