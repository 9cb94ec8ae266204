//! Times: sums, comparisons, differences.

use std::time::Duration;

use oracle::calls::Answer;
use oracle::tables::{self as rust, Updated};
use ours::tables;

use super::{yes, Beyond, Class, Did, Diff, Report, Verdict};
use crate::tables::{Moment, Time, Told};

/// The sorts of a comparison: both sides the same, a nanosecond apart, more.
pub const SAME: u8 = 0;
pub const NEXT: u8 = 1;
pub const APART: u8 = 2;
/// The sorts of a sum or a difference: with a second carried over the nanoseconds, or without.
pub const PLAIN: u8 = 3;
pub const CARRIED: u8 = 4;

/// Stands where a clock comes, so that it shows whether one was written.
const UNWRITTEN: [u64; 2] = [0xA5A5, 0x5A5A];

const LARGEST: u32 = i32::MAX as u32;

pub fn check(moment: &Moment) -> Report {
    let mut diff = Diff::default();
    let (theirs, changed) = theirs(moment);
    let class = class(moment);
    let did = theirs.as_ref().map_or(Did::Absent, rust_did);
    let told = match (&theirs, class) {
        (Some(Answer::Is(told)), None) => *told,
        (_, None) => {
            diff.fail("the Rust panicked in the domain");
            moment.told()
        }
        (_, Some(_)) => moment.told(),
    };
    // A timeout that the Rust does not test is the one class in which its answer is another's.
    if let (Some(Answer::Is(answer)), Some(Class::LongNanos)) = (&theirs, class) {
        if *answer != told {
            diff.fail("at as many whole nanoseconds the Rust answers otherwise");
        }
    }
    let ours = ours(moment);
    let expected = words(told);
    diff.words("answer and words", &expected, &ours);
    let verdict = class.map_or(Verdict::Equal, |_| Verdict::Outside);
    let mut report = Report::new(did, our_did(moment, ours[0]), diff.verdict(verdict));
    report.kind = sort(moment, told);
    report.beyond.extend(class.map(|class| Beyond {
        class,
        did,
        changed,
    }));
    report
}

/// Where document 01 leaves the Rust, whose times have fewer nanoseconds than a second, whose timeouts
/// are tested from 1 to 2^31-1, and whose sums and differences must not pass a `Duration`'s range.
pub fn class(moment: &Moment) -> Option<Class> {
    let past_the_end = Time::of_whole(moment.sum()).is_none();
    match moment {
        Moment::Past { timeout, .. } if !(1..=LARGEST).contains(timeout) => Some(Class::OddTimeout),
        _ if moment.times().iter().any(|time| !time.is_proper()) => Some(Class::LongNanos),
        Moment::Past { .. } if past_the_end => Some(Class::PastEnd),
        Moment::Due { .. } if past_the_end => Some(Class::DueEnd),
        Moment::Add { .. } if past_the_end => Some(Class::ClockEnd),
        Moment::Since { .. } if moment.sum() > moment.now() => Some(Class::LaterThan),
        _ => None,
    }
}

/// None where the Rust has no such time; then whether its clock is another than before a panic.
fn theirs(moment: &Moment) -> (Option<Answer<Told>>, bool) {
    let [Some(first), Some(second)] = moment.times().map(Time::duration) else {
        return (None, false);
    };
    let answer = match *moment {
        Moment::Add { .. } => {
            let (answer, clock) = rust::update(first, second);
            let told = |()| Told::Clock(clock.into());
            let panicked = matches!(answer, Answer::Panicked { .. });
            return (Some(map(answer, told)), panicked && clock != first);
        }
        Moment::Before { .. } => Answer::Is(Told::Is(rust::is_before(first, second))),
        Moment::Past { timeout, .. } => {
            // Sent at zero, so that the second sum cannot pass the range.
            let updated = rust::update_client(second, first, Duration::ZERO, timeout as i32);
            map(updated, |updated| {
                Told::Is(updated == Updated::Disconnected)
            })
        }
        Moment::Due { .. } => {
            let updated = rust::update_client(second, Duration::ZERO, first, 0);
            map(updated, |updated| Told::Is(updated == Updated::KeptAlive))
        }
        Moment::Since { .. } => {
            let since = rust::time_since_last_received_packet(first, second);
            map(since, |since| {
                Told::Gone(since.expect("connected").as_nanos())
            })
        }
    };
    (Some(answer), false)
}

fn map<T, U>(answer: Answer<T>, to: impl FnOnce(T) -> U) -> Answer<U> {
    match answer {
        Answer::Is(value) => Answer::Is(to(value)),
        Answer::Panicked { buffer, window } => Answer::Panicked { buffer, window },
    }
}

fn rust_did(answer: &Answer<Told>) -> Did {
    match answer {
        Answer::Is(Told::Is(is)) => yes(*is),
        Answer::Is(_) => Did::Done,
        Answer::Panicked { .. } => Did::Panicked,
    }
}

/// The call's number, and its two words where it has some.
fn ours(moment: &Moment) -> [u64; 3] {
    let mut out = UNWRITTEN;
    let number = match *moment {
        Moment::Add { clock, step } => tables::time_add(clock.words(), step.words(), &mut out),
        Moment::Before { a, b } => tables::time_before(a.words(), b.words()),
        Moment::Past { time, timeout, now } => {
            tables::time_past(time.words(), timeout, now.words())
        }
        Moment::Due { time, now } => tables::time_due(time.words(), now.words()),
        Moment::Since { now, then } => {
            out = tables::time_since(now.words(), then.words());
            0
        }
    };
    [number.into(), out[0], out[1]]
}

fn our_did(moment: &Moment, number: u64) -> Did {
    match (moment, number) {
        (Moment::Add { .. } | Moment::Since { .. }, 0) => Did::Done,
        (_, 0) => Did::No,
        (_, 1) => Did::Done,
        (_, number) => Did::Refused(number as u8),
    }
}

/// As ours has it: a difference in whole seconds and the rest, and in as many seconds as a word holds.
pub fn words(told: Told) -> [u64; 3] {
    let [first, second] = UNWRITTEN;
    match told {
        Told::Clock(time) => [0, time.secs, time.nanos],
        Told::OutOfRange => [20, first, second],
        Told::Is(is) => [is.into(), first, second],
        Told::Gone(nanos) => {
            let gone = Time::of_whole(nanos).unwrap_or(Time::new(u64::MAX, 0));
            [
                0,
                gone.secs,
                (nanos - Time::new(gone.secs, 0).whole()) as u64,
            ]
        }
    }
}

fn sort(moment: &Moment, told: Told) -> Option<u8> {
    let (sum, now) = (moment.sum(), moment.now());
    let [first, second] = moment.times().map(|time| time.nanos);
    match (moment, told) {
        (_, Told::OutOfRange) => None,
        (Moment::Add { .. }, Told::Clock(clock)) if clock.nanos < first => Some(CARRIED),
        (Moment::Since { .. }, Told::Gone(0)) => Some(SAME),
        (Moment::Since { .. }, _) if first < second => Some(CARRIED),
        (Moment::Add { .. } | Moment::Since { .. }, _) => Some(PLAIN),
        _ if sum == now => Some(SAME),
        _ if sum.abs_diff(now) == 1 => Some(NEXT),
        _ => Some(APART),
    }
}
