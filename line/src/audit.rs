//! Holds what the server booked to what it must have booked: every reading that was delivered in time, once, under its own pump, and
//! nothing else.

use std::collections::{BTreeMap, HashMap, HashSet};
use std::time::Duration;

use crate::book::{Account, Counted};
use crate::fault::{Fault, Wrong};
use crate::model::{expect, Expectation};
use crate::proxy::Delivered;
use crate::pump::Record;

/// Of one pump: what it wrote down, what its link delivered, and what the server says of the link's address.
pub struct History<'a> {
    pub pump: u64,
    pub record: &'a Record,
    pub delivered: &'a [Delivered],
    pub account: &'a Account,
}

#[derive(Debug, Default)]
pub struct Report {
    pub made: usize,
    pub counted: usize,
    /// Readings that the proxy never delivered.
    pub lost: usize,
    /// Readings that it delivered only when they were 256 or more behind, or when the connection was over.
    pub late: usize,
    pub faults: Vec<Fault>,
}

impl Report {
    /// A run that counted nothing has shown nothing.
    pub fn is_good(&self) -> bool {
        self.faults.is_empty() && self.counted > 0
    }
}

/// Under which ids a reading, of a pump and with a number, was booked.
type Bookings = BTreeMap<(u64, u64), Vec<u64>>;

pub fn audit(histories: &[History], counted: &[Counted], timeout: Duration) -> Report {
    let mut report = Report {
        counted: counted.len(),
        ..Report::default()
    };
    let bookings = bookings(histories, counted, &mut report.faults);
    for history in histories {
        let expectation = expect(history, timeout);
        report.judge_readings(history, &expectation, &bookings);
        report.judge_acknowledgements(history, &bookings);
        let pump = history.pump;
        let faults = expectation.faults.iter();
        report
            .faults
            .extend(faults.map(|&what| Fault::Connection { pump, what }));
    }
    report
}

/// Finds the reading of each payload by its bytes, and names those that no pump made.
fn bookings(histories: &[History], counted: &[Counted], faults: &mut Vec<Fault>) -> Bookings {
    let mut makers: HashMap<&[u8], (u64, u64)> = HashMap::new();
    for history in histories {
        for (payload, number) in history.record.readings.iter().zip(1..) {
            makers.insert(payload, (history.pump, number));
        }
    }
    let mut bookings = Bookings::new();
    for Counted { client_id, payload } in counted {
        match makers.get(payload.as_slice()) {
            Some(reading) => bookings.entry(*reading).or_default().push(*client_id),
            None => faults.push(Fault::Unknown {
                client_id: *client_id,
                payload: payload.clone(),
            }),
        }
    }
    bookings
}

impl Report {
    fn judge_readings(&mut self, history: &History, expected: &Expectation, bookings: &Bookings) {
        let pump = history.pump;
        let made = history.record.readings.len();
        self.made += made;
        for number in 1..=made as u64 {
            let due = expected.counted.contains(&number);
            if !expected.arrived.contains(&number) {
                self.lost += 1;
            } else if !due {
                self.late += 1;
            }
            let booked = bookings.get(&(pump, number)).map_or(&[][..], Vec::as_slice);
            self.judge(pump, number, due, booked);
        }
    }

    fn judge(&mut self, pump: u64, number: u64, due: bool, booked: &[u64]) {
        let mut fault = |wrong| {
            self.faults.push(Fault::Reading {
                pump,
                number,
                wrong,
            })
        };
        if due && booked.is_empty() {
            fault(Wrong::Missing);
        }
        if !due && !booked.is_empty() {
            fault(Wrong::Unexpected);
        }
        if booked.len() > 1 {
            fault(Wrong::Repeated(booked.len()));
        }
        if let Some(&client_id) = booked.iter().find(|&&id| id != pump) {
            fault(Wrong::BookedTo(client_id));
        }
    }

    /// A pump may hear of each of its counted readings once.
    fn judge_acknowledgements(&mut self, history: &History, bookings: &Bookings) {
        let pump = history.pump;
        let mut heard = HashSet::new();
        for &number in &history.record.acknowledged {
            let wrong = if !bookings.contains_key(&(pump, number)) {
                Wrong::AcknowledgedUncounted
            } else if !heard.insert(number) {
                Wrong::AcknowledgedTwice
            } else {
                continue;
            };
            self.faults.push(Fault::Reading {
                pump,
                number,
                wrong,
            });
        }
    }
}
