//! Drawn cases of tables and times, and histories of one table of token entries.

use super::entries::{drawn_time, few_addresses, few_macs, used_mark};
use super::slots::few_ids;
use super::{Address, Entries, Entry, Fill, Hosts, Mark, Moment, Place, Slot, Slots, Sparse};
use super::{Time, Wanted, ENTRIES, LATEST, SECOND};
use crate::case::Case;
use crate::judge::{Found, Judge};
use crate::rng::Rng;

pub struct Draw {
    pub histories: u64,
    left: usize,
    table: Sparse<Mark>,
    clock: Time,
}

impl Draw {
    pub fn new(rng: &mut Rng) -> Self {
        let fill = match rng.below(4) {
            0 => Fill::Same(Mark::EMPTY),
            1 => Fill::Same(Mark {
                mark: used_mark(rng),
                ..Mark::drawn(rng.next(), 0)
            }),
            _ => Fill::Drawn(rng.next()),
        };
        Self {
            histories: 1,
            left: 20 + rng.below(181),
            table: Sparse::new(ENTRIES, fill),
            clock: drawn_time(rng, 1),
        }
    }

    pub fn put(&mut self, judge: &mut Judge, rng: &mut Rng) -> Result<(), Found> {
        let case = match rng.below(100) {
            0..6 => return self.go_on(judge, rng),
            6..10 => Case::Entries(uses(rng)),
            10..40 => Case::Slots(search(rng)),
            40..46 => Case::Hosts(hosts(rng)),
            _ => Case::Moment(moment(rng)),
        };
        judge.put(case)?;
        Ok(())
    }

    /// The next use of a token in a run of 20 to 200 on one table, under a clock that moves.
    fn go_on(&mut self, judge: &mut Judge, rng: &mut Rng) -> Result<(), Found> {
        if self.left == 0 {
            let histories = self.histories + 1;
            *self = Self {
                histories,
                ..Self::new(rng)
            };
        }
        self.left -= 1;
        if let Some(later) = Time::of_whole(self.clock.whole() + u128::from(step(rng))) {
            self.clock = later;
        }
        let used = Entry {
            time: self.clock,
            address: few_addresses(rng),
            mac: one_of_twelve(rng),
        };
        let table = self.table.clone();
        let report = judge.put(Case::Entries(Entries { table, used }))?;
        if let Some(at) = report.written {
            let (mark, entry) = (1, used);
            self.table.named.insert(at, Mark { mark, entry });
        }
        Ok(())
    }
}

fn step(rng: &mut Rng) -> u64 {
    match rng.below(4) {
        0 => 0,
        1 => rng.next() % 3,
        2 => rng.next() % SECOND,
        _ => rng.next() % (5 * SECOND),
    }
}

/// Few enough to come again in a history.
fn one_of_twelve(rng: &mut Rng) -> [u8; 16] {
    let mut mac = [7; 16];
    mac[15 * rng.below(2)] = rng.below(6) as u8;
    mac
}

/// Mostly a table as long as the Rust's; some shorter, some with times that no clock has.
fn uses(rng: &mut Rng) -> Entries {
    let places = match rng.below(4) {
        0 => 1 + rng.below(6),
        _ => ENTRIES,
    };
    let fill = match rng.below(3) {
        0 => Fill::Same(Mark::drawn(rng.next(), 0)),
        _ => Fill::Drawn(rng.next()),
    };
    let mut table = Sparse::new(places, fill);
    for _ in 0..rng.below(6) {
        let mut place = Mark::drawn(rng.next(), 0);
        if rng.one_in(2) {
            place.entry.mac = few_macs(rng);
        }
        if rng.one_in(16) {
            place.entry.time = long(rng, place.entry.time);
        }
        let at = if rng.one_in(2) {
            rng.below(places)
        } else {
            rng.pick(&[0, places - 1])
        };
        table.named.insert(at, place);
    }
    let sort = rng.next() % 4;
    let mut used = Entry {
        time: drawn_time(rng, sort),
        address: few_addresses(rng),
        mac: few_macs(rng),
    };
    if rng.one_in(16) {
        used.time = long(rng, used.time);
    }
    if let Some(place) = table.named.values().next().filter(|_| rng.one_in(2)) {
        used.mac = place.entry.mac;
    }
    Entries { table, used }
}

/// As late or nearly, in nanoseconds that no clock has; a body has four bytes for them.
fn long(rng: &mut Rng, time: Time) -> Time {
    let seconds = (1 + rng.next() % 3).min(time.secs);
    let secs = time.secs - seconds;
    Time::new(secs, time.nanos + seconds * SECOND)
}

fn search(rng: &mut Rng) -> Slots {
    let places = match rng.below(1000) {
        0 => 1 + rng.below(1024),
        1..10 => 1 + rng.below(64),
        _ => 1 + rng.below(16),
    };
    let mut table = Sparse::new(places, Fill::Drawn(rng.next()));
    for _ in 0..rng.below(4) {
        let at = rng.below(places);
        table.named.insert(at, Slot::drawn(rng.next(), at));
    }
    let at = rng.below(places);
    let one = table.all()[at];
    let wanted = match rng.below(8) {
        0 => Wanted::Address(few_addresses(rng)),
        1 | 2 => Wanted::Address(one.address),
        3 => Wanted::Id(few_ids(rng)),
        4 | 5 => Wanted::Id(one.id),
        6 => Wanted::Free,
        _ => Wanted::Count,
    };
    Slots { table, wanted }
}

fn hosts(rng: &mut Rng) -> Hosts {
    let mut some = |most: usize| -> Vec<Address> {
        let many = rng.mostly_below(5, 8, most + 1);
        (0..many).map(|_| few_addresses(rng)).collect()
    };
    Hosts {
        list: some(32),
        ours: some(40),
    }
}

/// Any time, mostly one that a clock has.
fn any_time(rng: &mut Rng) -> Time {
    let sort = rng.next() % 4;
    let time = drawn_time(rng, sort);
    match rng.below(12) {
        0 => Time::new(time.secs, rng.number()),
        1 => Time::new(time.secs, rng.near(SECOND, 2)),
        _ => time,
    }
}

fn timeout(rng: &mut Rng) -> u32 {
    match rng.below(8) {
        0 => rng.next() as u32,
        1 => rng.number() as u32,
        _ => 1 + rng.below(30) as u32,
    }
}

fn moment(rng: &mut Rng) -> Moment {
    let (time, now) = (any_time(rng), any_time(rng));
    let moment = match rng.below(5) {
        0 => Moment::Add {
            clock: time,
            step: now,
        },
        1 => Moment::Before { a: time, b: now },
        2 => Moment::Past {
            time,
            timeout: timeout(rng),
            now,
        },
        3 => Moment::Due { time, now },
        _ => Moment::Since { now, then: time },
    };
    if rng.one_in(3) {
        moment
    } else {
        close(rng, moment).unwrap_or(moment)
    }
}

/// Close to where its answer turns: now near the sum, a step that nearly ends the clock.
fn close(rng: &mut Rng, moment: Moment) -> Option<Moment> {
    let away = u128::from(step(rng));
    let turn = match moment {
        Moment::Add { clock, .. } => LATEST.whole().checked_sub(clock.whole())?,
        _ => moment.sum(),
    };
    let whole = match rng.below(3) {
        0 => turn,
        1 => turn.checked_sub(away)?,
        _ => turn + away,
    };
    let close = Time::of_whole(whole)?;
    Some(match moment {
        Moment::Since { then, .. } => Moment::Since { now: close, then },
        _ => moment.at([moment.times()[0], close]),
    })
}
