//! A table of connections, laid out here by hand as docs/ARCHITECTURE.md has it.

use ours::tables::PLACE_WORDS;

use super::Fit;
use crate::tables::{words, Address};

const BODY_WORDS: usize = PLACE_WORDS - 5;

/// Where in a body: seconds and nanoseconds, seconds, and 32 words.
pub const RECEIVED: usize = 9;
pub const EXPIRY: usize = 15;
pub const USER_DATA: usize = 16;

/// Stands, with its own place, in each word that nothing is written to.
const UNUSED: u64 = 0xA5A5_0000_0000_0000;

/// Marks, ids, addresses, and bodies that are all unlike each other.
pub fn columns(marks: &[u64], ids: &[u64], addresses: &[Address]) -> Vec<u64> {
    let mut table = [marks, ids].concat();
    table.extend(addresses.iter().flat_map(words));
    let len = PLACE_WORDS * marks.len();
    table.extend((table.len()..len).map(|at| UNUSED + at as u64));
    table
}

/// Where the body of a place starts, of so many.
pub fn body_of(places: usize, at: usize) -> usize {
    5 * places + BODY_WORDS * at
}

/// The table as long as it is lent.
pub fn lent(mut table: Vec<u64>, fit: Fit) -> Vec<u64> {
    table.resize(fit.lent(table.len()), UNUSED);
    table
}
