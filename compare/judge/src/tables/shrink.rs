//! Smaller cases of tables and times.

use super::entries::{self, Entries, ENTRIES};
use super::{four, Address, Hosts, Moment, Slot, Slots, Time, Wanted, SECOND};
use crate::case::Case;
use crate::shrink::{numbers, zeroed};

pub fn simpler(case: &Case) -> Vec<Case> {
    match case {
        Case::Entries(case) => uses(case).into_iter().map(Case::Entries).collect(),
        Case::Slots(case) => searches(case).into_iter().map(Case::Slots).collect(),
        Case::Hosts(case) => hosts(case).into_iter().map(Case::Hosts).collect(),
        Case::Moment(moment) => moments(moment).into_iter().map(Case::Moment).collect(),
        _ => Vec::new(),
    }
}

pub fn simpler_times(time: Time) -> Vec<Time> {
    let secs = lower(time.secs).map(|secs| Time { secs, ..time });
    let nanos = lower(time.nanos).map(|nanos| Time { nanos, ..time });
    secs.chain(nanos).collect()
}

/// Smaller numbers in strides of every length, since a time may turn at any number, and often at these.
fn lower(number: u64) -> impl Iterator<Item = u64> {
    let turns = [0, 250_000_000, SECOND];
    let strides = (1..64).map(move |bits| number - (number >> bits));
    let tries = turns.into_iter().chain(strides).chain(numbers(number));
    tries.filter(move |lower| *lower < number)
}

/// Well-formed ones, if it is.
pub fn simpler_addresses(address: &Address) -> Vec<Address> {
    let ports = numbers(address.port.into()).map(|port| Address {
        port: port as u16,
        ..*address
    });
    let bytes = zeroed(&address.bytes).into_iter().map(|bytes| Address {
        bytes: bytes.try_into().expect("as many bytes"),
        ..*address
    });
    let mut tries: Vec<Address> = ports.chain(bytes).collect();
    if address.kind == 6 {
        tries.insert(0, four([0; 4], address.port));
    }
    tries
}

/// Shorter tables only where the table is not as long as the Rust's, so that a case stays in the domain.
fn uses(case: &Entries) -> Vec<Entries> {
    let used = case.used;
    let with_table = |table| Entries { table, used };
    let mut tries: Vec<Entries> = case.table.simpler().into_iter().map(with_table).collect();
    if case.table.places < ENTRIES {
        tries.extend(case.table.shorter().into_iter().map(with_table));
    }
    tries.extend(entries::simpler(&used).into_iter().map(|used| Entries {
        used,
        ..case.clone()
    }));
    // Token and address also together with the places that have the same.
    for simple in entries::simpler(&used) {
        let mut less = case.clone();
        less.used = simple;
        less.table.change(|place| {
            if place.entry.mac == used.mac {
                place.entry.mac = simple.mac;
            }
            if place.entry.address == used.address {
                place.entry.address = simple.address;
            }
        });
        tries.push(less);
    }
    tries.retain(|less| less != case);
    tries
}

fn searches(case: &Slots) -> Vec<Slots> {
    let tables = case.table.shorter().into_iter().chain(case.table.simpler());
    let mut tries: Vec<Slots> = tables.map(|table| Slots { table, ..*case }).collect();
    let mut together = |wanted: Wanted, change: &dyn Fn(&mut Slot)| {
        let mut less = case.clone();
        less.wanted = wanted;
        tries.push(less.clone());
        less.table.change(change);
        tries.push(less);
    };
    match case.wanted {
        Wanted::Id(id) => {
            for lower in numbers(id) {
                together(Wanted::Id(lower), &|slot| {
                    slot.id = if slot.id == id { lower } else { slot.id };
                });
            }
        }
        Wanted::Address(address) => {
            for simple in simpler_addresses(&address) {
                together(Wanted::Address(simple), &|slot| {
                    slot.address = if slot.address == address {
                        simple
                    } else {
                        slot.address
                    };
                });
            }
        }
        Wanted::Free | Wanted::Count => {}
    }
    tries.retain(|less| less != case);
    tries
}

fn hosts(case: &Hosts) -> Vec<Hosts> {
    let lists = fewer(&case.list).into_iter().map(|list| Hosts {
        list,
        ..case.clone()
    });
    let ours = fewer(&case.ours).into_iter().map(|ours| Hosts {
        ours,
        ..case.clone()
    });
    lists.chain(ours).collect()
}

/// Without one of them, or with one that is simpler.
pub fn fewer(addresses: &[Address]) -> Vec<Vec<Address>> {
    let mut tries = Vec::new();
    for at in 0..addresses.len() {
        let mut less = addresses.to_vec();
        less.remove(at);
        tries.push(less);
        for simple in simpler_addresses(&addresses[at]) {
            let mut less = addresses.to_vec();
            less[at] = simple;
            tries.push(less);
        }
    }
    tries
}

fn moments(moment: &Moment) -> Vec<Moment> {
    let [first, second] = moment.times();
    let mut tries = Vec::new();
    // Both lowered together, so that they stay as far apart.
    for secs in numbers(first.secs.min(second.secs)) {
        let by = first.secs.min(second.secs) - secs;
        let lower = |time: Time| Time::new(time.secs - by, time.nanos);
        tries.push(moment.at([lower(first), lower(second)]));
    }
    let by_first = simpler_times(first).into_iter();
    tries.extend(by_first.map(|first| moment.at([first, second])));
    let by_second = simpler_times(second).into_iter();
    tries.extend(by_second.map(|second| moment.at([first, second])));
    if let Moment::Past { time, timeout, now } = *moment {
        tries.extend(numbers(timeout.into()).map(|timeout| Moment::Past {
            time,
            timeout: timeout as u32,
            now,
        }));
    }
    tries
}
