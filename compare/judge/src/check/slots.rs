//! The searches of a table of connections.

use oracle::tables as rust;
use ours::tables;

use super::{answered, yes, Diff, Report, Verdict};
use crate::tables::{slot_clients, slot_words, socket, Slots, Wanted};

/// The sorts of answer: where the place is, or how many places are used.
pub const AT_FIRST: u8 = 0;
pub const BETWEEN: u8 = 1;
pub const AT_LAST: u8 = 2;
pub const ALL_USED: u8 = 3;
pub const NONE_USED: u8 = 4;
pub const SOME_USED: u8 = 5;

/// Stands where the place comes, so that it shows whether one was written.
const UNWRITTEN: u64 = 0xA5A5;

pub fn check(case: &Slots) -> Report {
    let places = case.table.all();
    let clients = slot_clients(&places).expect("well-formed addresses");
    let mut diff = Diff::default();
    let found = theirs(&clients, case.wanted, &mut diff);
    let before = slot_words(&places);
    let table = before.clone();
    let mut place = [UNWRITTEN];
    let number = match &case.wanted {
        Wanted::Address(address) => tables::find_by_address(&table, address, &mut place),
        Wanted::Id(id) => tables::find_by_id(&table, *id, &mut place),
        Wanted::Free => tables::find_free(&table, &mut place),
        Wanted::Count => tables::count_used(&table, &mut place),
    };
    diff.number("found", found.is_some().into(), number.into());
    let expected = found.map_or(UNWRITTEN, |found| found as u64);
    diff.number("place or count", expected, place[0]);
    diff.table("the table after it", &before, &table);
    let verdict = diff.verdict(Verdict::Equal);
    let mut report = Report::new(yes(found.is_some()), answered(number), verdict);
    let count = matches!(case.wanted, Wanted::Count);
    report.kind = found.map(|found| sort(places.len(), found, count));
    report
}

fn sort(places: usize, found: usize, count: bool) -> u8 {
    match found {
        0 if count => NONE_USED,
        _ if count && found == places => ALL_USED,
        _ if count => SOME_USED,
        0 => AT_FIRST,
        _ if found + 1 == places => AT_LAST,
        _ => BETWEEN,
    }
}

/// The place, or the count; where the Rust has more than one way to find it, all must agree.
fn theirs(clients: &[Option<rust::Client>], wanted: Wanted, diff: &mut Diff) -> Option<usize> {
    let mut slots = rust::Slots::new(clients.iter().copied());
    match wanted {
        Wanted::Address(address) => {
            let addr = socket(&address).expect("well-formed");
            let found = slots.by_address(addr);
            if slots.client_by_address(addr) != found {
                diff.fail("the Rust found another client than its place says");
            }
            let pending = clients.iter().flatten().map(|client| client.1);
            if rust::is_pending(pending, addr) != found.is_some() {
                diff.fail("the Rust's pending clients answer otherwise than its slots");
            }
            found
        }
        Wanted::Id(id) => {
            let found = slots.by_id(id);
            if slots.clients_by_id(id) != [found; 2] {
                diff.fail("the Rust's searches by id do not agree");
            }
            found
        }
        Wanted::Free => slots.take_free(),
        Wanted::Count => {
            let count = slots.connected_clients();
            if slots.clients_slot().len() != count {
                diff.fail("the Rust's counts do not agree");
            }
            Some(count)
        }
    }
}
