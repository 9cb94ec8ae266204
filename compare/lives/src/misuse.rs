//! What the Rust has no case for: calls out of turn, buffers of another length, fields out of range. Ours has to give document 01's
//! number and change nothing.

use crate::addresses::Wire;
use crate::counts::Counts;
use crate::ours::{Lent, Ours, SetUp};
use crate::sys::{Held, Record};

mod asks;
mod rest;

pub use asks::at_ask;
pub use rest::{at_rest, needed};

const GOOD: Wire = Wire {
    kind: 4,
    port: 1,
    ip: [9, 9, 9, 9, 0, 0, 0, 0, 0, 0, 0, 0, 0, 0, 0, 0],
};

/// All that a refused call has to leave as it is.
struct Before {
    record: Record,
    slots: Vec<u64>,
    marks: Vec<u64>,
    entries: Vec<u8>,
    held: Held,
    out: Vec<u8>,
    datagram: Vec<u8>,
}

impl Before {
    fn of(ours: &Ours) -> Self {
        let places = ours.pending.len() / crate::ours::PLACE_WORDS;
        Self {
            record: ours.record,
            slots: ours.slots.clone(),
            marks: ours.pending[..places].to_vec(),
            entries: ours.entries.clone(),
            held: ours.held,
            out: ours.out.clone(),
            datagram: ours.datagram.clone(),
        }
    }

    fn is_as(&self, ours: &Ours) -> bool {
        self.record == ours.record
            && self.slots == ours.slots
            && self.marks == ours.pending[..self.marks.len()]
            && self.entries == ours.entries
            && self.held == ours.held
            && self.out == ours.out
            && self.datagram == ours.datagram
    }
}

struct Tried<'a> {
    ours: &'a mut Ours,
    before: Before,
    lent: Lent,
    counts: &'a mut Counts,
}

impl<'a> Tried<'a> {
    fn new(ours: &'a mut Ours, counts: &'a mut Counts) -> Self {
        Self {
            before: Before::of(ours),
            lent: ours.lent,
            ours,
            counts,
        }
    }

    /// The call, lent other lengths, has to come to this refusal and to nothing else.
    fn refuses(
        &mut self,
        entry: &str,
        number: u64,
        lent: impl FnOnce(&mut Lent),
        call: impl FnOnce(&mut Ours),
    ) -> Result<(), String> {
        lent(&mut self.ours.lent);
        call(self.ours);
        self.ours.lent = self.lent;
        let mut words = [0; 14];
        words[1] = number;
        self.counts.reach(&format!("{entry}: refusal {number}"));
        if self.ours.answer != words || self.ours.told != [0; 85] {
            let answer = self.ours.answer;
            return Err(format!(
                "ours alone, {entry}: {number} is due, ours answers {answer:?}"
            ));
        }
        if !self.before.is_as(self.ours) {
            return Err(format!(
                "ours alone, {entry}: {number}, and something has changed"
            ));
        }
        Ok(())
    }
}

fn as_it_is(_: &mut Lent) {}

/// Set-ups that are refused, before the one that is not; the tables stay as they are.
pub fn at_set_up(ours: &mut Ours, given: &SetUp, counts: &mut Counts) -> Result<(), String> {
    let lent = ours.lent;
    let mut refuses = |number: u8, lent_now: Lent, given: &SetUp, ours: &mut Ours| {
        let before = Before::of(ours);
        ours.lent = lent_now;
        let got = ours.set_up(given);
        ours.lent = lent;
        counts.reach(&format!("set_up: refusal {number}"));
        let record = std::mem::replace(&mut ours.record, before.record);
        if got != number || record != [0; 34] || !before.is_as(ours) {
            return Err(format!(
                "ours alone, set_up: {number} is due, ours says {got}, {record:?}"
            ));
        }
        Ok(())
    };
    for change in [
        |lent: &mut Lent| lent.slots -= 1,
        |lent: &mut Lent| lent.slots = 0,
        |lent: &mut Lent| lent.pending -= 1,
        |lent: &mut Lent| lent.pending = 0,
        |lent: &mut Lent| lent.entries -= 1,
        |lent: &mut Lent| lent.entries = 0,
    ] {
        let mut short = lent;
        change(&mut short);
        refuses(23, short, given, ours)?;
    }
    let mut over = given.clone();
    over.max_clients = lent.slots / crate::ours::PLACE_WORDS + 1;
    refuses(23, lent, &over, ours)?;
    let mut late = given.clone();
    (late.secs, late.nanos) = (u64::MAX, 1_000_000_000);
    refuses(20, lent, &late, ours)?;
    let first = ours.public[0];
    ours.public[0] = 5 * 65536;
    let malformed = refuses(19, lent, &late, ours);
    let before_it = refuses(23, lent, &over, ours);
    ours.public[0] = first;
    malformed.and(before_it)
}
