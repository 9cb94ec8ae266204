//! Times at their edges: every pair of a grid, and pairs that lie close together.

use super::{Moment, Time, SECOND};
use crate::case::Case;
use crate::judge::{Found, Judge};

type Tried = Result<(), Found>;

const SECS: [u64; 9] = [
    0,
    1,
    2,
    25,
    1 << 32,
    1 << 63,
    u64::MAX - 2,
    u64::MAX - 1,
    u64::MAX,
];

/// Those of a clock.
const NANOS: [u64; 9] = [
    0,
    1,
    249_999_999,
    250_000_000,
    250_000_001,
    749_999_999,
    750_000_000,
    750_000_001,
    SECOND - 1,
];

/// Those that no clock has.
const LONG: [u64; 6] = [
    SECOND,
    SECOND + 1,
    2 * SECOND - 1,
    1 << 32,
    u64::MAX - 1,
    u64::MAX,
];

const TIMEOUTS: [u32; 7] = [0, 1, 2, 15, (1 << 31) - 1, 1 << 31, u32::MAX];

/// How far now may be from where an answer turns.
const AWAY: [i128; 7] = [
    -(SECOND as i128),
    -250_000_000,
    -1,
    0,
    1,
    250_000_000,
    SECOND as i128,
];

fn times(nanos: &[u64]) -> Vec<Time> {
    let of = |secs: u64| nanos.iter().map(move |nanos| Time::new(secs, *nanos));
    SECS.into_iter().flat_map(of).collect()
}

pub fn run(judge: &mut Judge) -> Tried {
    let (clocks, long) = (times(&NANOS), times(&LONG));
    for first in &clocks {
        for second in &clocks {
            every_way(judge, *first, *second)?;
        }
    }
    for first in &long {
        for second in times(&[0, SECOND - 1]).iter().chain(&long) {
            every_way(judge, *first, *second)?;
            every_way(judge, *second, *first)?;
        }
    }
    for time in clocks.iter().chain(&long) {
        close(judge, *time)?;
    }
    Ok(())
}

fn every_way(judge: &mut Judge, a: Time, b: Time) -> Tried {
    let mut put = |moment| judge.put(Case::Moment(moment)).map(|_| ());
    put(Moment::Add { clock: a, step: b })?;
    put(Moment::Before { a, b })?;
    put(Moment::Due { time: a, now: b })?;
    put(Moment::Since { now: a, then: b })?;
    let timeout = 1;
    put(Moment::Past {
        time: a,
        timeout,
        now: b,
    })
}

/// Now around the time itself, around 250 ms later, around each timeout later.
fn close(judge: &mut Judge, time: Time) -> Tried {
    for away in AWAY {
        let now = |sum: u128| {
            let whole = sum.checked_add_signed(away)?;
            Time::of_whole(whole)
        };
        let due = Moment::Due {
            time,
            now: Time::ZERO,
        };
        if let Some(now) = now(due.sum()) {
            judge.put(Case::Moment(Moment::Due { time, now }))?;
        }
        if let Some(now) = now(time.whole()) {
            judge.put(Case::Moment(Moment::Before { a: time, b: now }))?;
            judge.put(Case::Moment(Moment::Since { now, then: time }))?;
        }
        for timeout in TIMEOUTS {
            let past = |now| Moment::Past { time, timeout, now };
            if let Some(now) = now(past(Time::ZERO).sum()) {
                judge.put(Case::Moment(past(now)))?;
            }
        }
    }
    Ok(())
}
