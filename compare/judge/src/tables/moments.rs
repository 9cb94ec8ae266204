//! Times put beside each other.

use std::fmt;

use super::{Time, SECOND};
use crate::case::Call;

#[derive(Debug, Clone, Copy, PartialEq, Eq)]
pub enum Moment {
    Add { clock: Time, step: Time },
    Before { a: Time, b: Time },
    Past { time: Time, timeout: u32, now: Time },
    Due { time: Time, now: Time },
    Since { now: Time, then: Time },
}

/// What document 01 says: whole nanoseconds, exact sums, a later time is zero away, a clock's
/// nanoseconds below a second.
#[derive(Debug, Clone, Copy, PartialEq, Eq)]
pub enum Told {
    Clock(Time),
    OutOfRange,
    Is(bool),
    Gone(u128),
}

const SEND_RATE: u128 = 250_000_000;

impl Moment {
    pub fn call(&self) -> Call {
        match self {
            Moment::Add { .. } => Call::Add,
            Moment::Before { .. } => Call::Before,
            Moment::Past { .. } => Call::Past,
            Moment::Due { .. } => Call::Due,
            Moment::Since { .. } => Call::Since,
        }
    }

    pub fn told(&self) -> Told {
        match *self {
            Moment::Add { clock, step } => {
                Time::of_whole(clock.whole() + step.whole()).map_or(Told::OutOfRange, Told::Clock)
            }
            Moment::Before { a, b } => Told::Is(a.whole() < b.whole()),
            Moment::Past { .. } => Told::Is(self.sum() < self.now()),
            Moment::Due { .. } => Told::Is(self.sum() <= self.now()),
            Moment::Since { now, then } => Told::Gone(now.whole().saturating_sub(then.whole())),
        }
    }

    /// What is compared with the other side: the time with what is added to it.
    pub fn sum(&self) -> u128 {
        match *self {
            Moment::Add { clock, step } => clock.whole() + step.whole(),
            Moment::Before { a, .. } => a.whole(),
            Moment::Past { time, timeout, .. } => {
                time.whole() + u128::from(timeout) * u128::from(SECOND)
            }
            Moment::Due { time, .. } => time.whole() + SEND_RATE,
            Moment::Since { then, .. } => then.whole(),
        }
    }

    /// The other side.
    pub fn now(&self) -> u128 {
        match *self {
            Moment::Add { step, .. } => step.whole(),
            Moment::Before { b, .. } => b.whole(),
            Moment::Past { now, .. } | Moment::Due { now, .. } | Moment::Since { now, .. } => {
                now.whole()
            }
        }
    }

    pub fn times(&self) -> [Time; 2] {
        match *self {
            Moment::Add { clock, step } => [clock, step],
            Moment::Before { a, b } => [a, b],
            Moment::Past { time, now, .. } | Moment::Due { time, now } => [time, now],
            Moment::Since { now, then } => [now, then],
        }
    }

    /// The same with these times.
    pub fn at(&self, [first, second]: [Time; 2]) -> Self {
        match *self {
            Moment::Add { .. } => Moment::Add {
                clock: first,
                step: second,
            },
            Moment::Before { .. } => Moment::Before {
                a: first,
                b: second,
            },
            Moment::Past { timeout, .. } => Moment::Past {
                time: first,
                timeout,
                now: second,
            },
            Moment::Due { .. } => Moment::Due {
                time: first,
                now: second,
            },
            Moment::Since { .. } => Moment::Since {
                now: first,
                then: second,
            },
        }
    }
}

impl fmt::Display for Moment {
    fn fmt(&self, f: &mut fmt::Formatter<'_>) -> fmt::Result {
        match self {
            Moment::Add { clock, step } => write!(f, " clock {clock} step {step}"),
            Moment::Before { a, b } => write!(f, " a {a} b {b}"),
            Moment::Past { time, timeout, now } => {
                write!(f, " time {time} timeout {timeout} now {now}")
            }
            Moment::Due { time, now } => write!(f, " time {time} now {now}"),
            Moment::Since { now, then } => write!(f, " now {now} then {then}"),
        }
    }
}
