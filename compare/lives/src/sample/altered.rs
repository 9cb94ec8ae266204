//! Lines that alter the record and the tables between calls, as both sides were altered.

use super::{hex, Sample};
use crate::ours::{Ours, ENTRIES, ENTRY_BYTES};
use crate::poke::Poke;
use crate::sys::Record;

/// Ours, before both sides are altered.
pub struct Tables {
    record: Record,
    slots: Vec<u64>,
    pending: Vec<u64>,
    entries: Vec<u8>,
}

impl Tables {
    pub fn of(ours: &Ours) -> Self {
        Self {
            record: ours.record,
            slots: ours.slots.clone(),
            pending: ours.pending.clone(),
            entries: ours.entries.clone(),
        }
    }
}

impl Sample {
    pub fn altered(&mut self, poke: &Poke, before: &Tables, ours: &Ours) {
        self.words('r', &before.record, &ours.record);
        self.words('s', &before.slots, &ours.slots);
        self.words('p', &before.pending, &ours.pending);
        match poke {
            Poke::Entries {
                secs: 0,
                lowest,
                again,
            } => self.push(format!("F {lowest} {again} =")),
            _ => self.entries(&before.entries, &ours.entries),
        }
    }

    /// Each run of words that are others than before, and alike.
    fn words(&mut self, table: char, before: &[u64], after: &[u64]) {
        let mut at = 0;
        while at < after.len() {
            let value = after[at];
            let is_run = |i: &usize| after[*i] == value && before[*i] != value;
            let times = (at..after.len()).take_while(is_run).count();
            if times > 0 {
                self.push(format!("K {table} {at} {times} {value} ="));
            }
            at += times.max(1);
        }
    }

    /// Each entry that is another one, all of them used.
    fn entries(&mut self, before: &[u8], after: &[u8]) {
        for i in 0..ENTRIES {
            let at = ENTRIES + (ENTRY_BYTES - 1) * i;
            let body = at..at + ENTRY_BYTES - 1;
            if before[i] != after[i] || before[body.clone()] != after[body.clone()] {
                self.push(format!("Y {i} {} =", hex(&after[body])));
            }
        }
    }
}
