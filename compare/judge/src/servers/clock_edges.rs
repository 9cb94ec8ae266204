//! Clocks and limits at their edges.

use ours::tables::PLACE_WORDS;

use super::edges::{put, Tried};
use super::{Fit, Limit, Server, Update, Waiting, STAGES};
use crate::judge::Judge;
use crate::tables::{Fill, Sparse, Time, LATEST, SECOND};

pub fn run(judge: &mut Judge) -> Tried {
    for secs in [0, 1, 100, 1 << 32, 1 << 63, u64::MAX] {
        for (clock, step) in ways(secs) {
            for places in [1, 2, 3, 16] {
                short(judge, places, secs, clock, step)?;
            }
        }
        // Long tables are slow to make, and two ways, with a carry and without, say as much there.
        for (clock, step) in ways(secs).into_iter().rev().take(2) {
            long(judge, 4096, secs, clock, step)?;
        }
    }
    unfit(judge)?;
    limits(judge)
}

fn update(judge: &mut Judge, table: Sparse<Waiting>, clock: Time, step: Time) -> Tried {
    put(judge, Server::Update(Update::plain(table, clock, step)))
}

/// Ways to a clock that shows these seconds, without a carry and with one.
fn ways(secs: u64) -> Vec<(Time, Time)> {
    let at = Time::new;
    let mut ways = vec![
        (at(secs, 0), Time::ZERO),
        (Time::ZERO, at(secs, SECOND - 1)),
        (at(secs, SECOND - 2), at(0, 1)),
    ];
    if let Some(before) = secs.checked_sub(1) {
        ways.push((at(before, SECOND - 1), at(0, 1)));
        ways.push((at(before, 500_000_000), at(0, 999_999_999)));
        ways.push((at(0, 1), at(before, SECOND - 1)));
        ways.push((at(1, 999), at(before, 7)));
    }
    ways
}

/// Below, at and above what the clock is to show.
fn expiries(secs: u64) -> [u64; 5] {
    [
        0,
        secs.wrapping_sub(1),
        secs,
        secs.wrapping_add(1),
        u64::MAX,
    ]
}

fn alike(places: usize, mark: u64, expiry: u64) -> Sparse<Waiting> {
    Sparse::new(places, Fill::Same(Waiting { mark, expiry }))
}

/// All alike but for one at either end or between: empty, expired, about to expire, of another mark.
fn short(judge: &mut Judge, places: usize, secs: u64, clock: Time, step: Time) -> Tried {
    for expiry in expiries(secs) {
        for mark in [0, 1, 2, 1 << 63] {
            update(judge, alike(places, mark, expiry), clock, step)?;
            for at in [0, places / 2, places - 1] {
                for other in [secs.wrapping_sub(1), secs] {
                    let one = Waiting {
                        mark,
                        expiry: other,
                    };
                    let table = alike(places, 1, expiry).with(at, one);
                    update(judge, table, clock, step)?;
                }
            }
        }
    }
    Ok(())
}

fn long(judge: &mut Judge, places: usize, secs: u64, clock: Time, step: Time) -> Tried {
    let before = secs.wrapping_sub(1);
    for expiry in expiries(secs) {
        update(judge, alike(places, 1, expiry), clock, step)?;
    }
    for at in [0, places / 2, places - 1] {
        let one = |mark, expiry| Waiting { mark, expiry };
        let stays = alike(places, 1 << 32, secs).with(at, one(1, before));
        update(judge, stays, clock, step)?;
        let goes = alike(places, 1 << 32, before).with(at, one(1, secs));
        update(judge, goes, clock, step)?;
    }
    Ok(())
}

/// Document 01's numbers in their order: 16, 23, 20.
fn unfit(judge: &mut Judge) -> Tried {
    let steps = [Time::ZERO, Time::new(101, 0), LATEST, Time::new(0, SECOND)];
    let clocks = [Time::new(1, 0), LATEST, Time::new(1, SECOND)];
    for places in [1, 3] {
        let words = PLACE_WORDS * places;
        let lent = [0, words - 1, words + 1, words + PLACE_WORDS].map(Fit::Lent);
        let found = [0, places + 1, usize::MAX].map(Fit::Found);
        for fit in [Fit::Fits].into_iter().chain(lent).chain(found) {
            for stage in 0..=STAGES {
                for (clock, step) in clocks
                    .iter()
                    .flat_map(|clock| steps.map(|step| (*clock, step)))
                {
                    let update = Update::plain(alike(places, 1, 1), clock, step);
                    let update = Update {
                        stage,
                        fit,
                        ..update
                    };
                    put(judge, Server::Update(update))?;
                }
            }
        }
    }
    // A place more than the most, lent and found.
    update(judge, alike(4097, 1, 1), Time::new(100, 0), Time::ZERO)
}

fn limits(judge: &mut Judge) -> Tried {
    let limits = [0, 1, 2, 1023, 1024, 1025, 1 << 32, 1 << 63, u64::MAX];
    for before in [0, 1, 1024] {
        for to in limits {
            for stage in 0..=STAGES {
                put(judge, Server::Limit(Limit { before, to, stage }))?;
            }
        }
    }
    Ok(())
}
