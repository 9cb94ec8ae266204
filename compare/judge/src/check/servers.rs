//! A whole server: what the checks of its calls share.

mod publics;
pub mod queries;
pub mod starts;
pub mod updates;

use ours::servers::{Answer, Record, Reply, CLOCK, STAGE, STEP};

use super::{Beyond, Class, Did, Diff, Report, Verdict};
use crate::servers::Server;
use crate::tables::Time;

pub fn check(case: &Server) -> Report {
    match case {
        Server::Update(case) => updates::update(case),
        Server::Limit(case) => updates::limit(case),
        Server::Query(case) => queries::check(case),
        Server::Public(case) => publics::check(case),
        Server::Start(case) => starts::check(case),
    }
}

/// Something in every word, so that it shows what a call leaves as it was; but for an open ask.
const FULL: Record = [
    3, 4, 5, 2, 1, 71, 6, 0, 0, 72, 73, 0, 74, 75, 76, 77, 78, 79, 80, 81, 82, 83, 0, 0, 0, 0, 0,
    0, 0, 0, 0, 0, 0, 0,
];

/// Which words each sort of ask has of its step: place, slot, type, sequence, start or end, whether
/// connected, three of an address, expiry or id, two of the private data's end.
const STEPS: [&[usize]; 10] = [
    &[],
    &[0, 2, 3, 4, 5],
    &[6, 7, 8, 9, 10, 11],
    &[0, 4],
    &[3, 4, 6, 7, 8],
    &[3, 4, 6, 7, 8],
    &[3, 4, 6, 7, 8],
    &[0, 1, 3, 4],
    &[1, 3, 4],
    &[3, 4, 6, 7, 8, 9],
];

/// A step's words as a call leaves them: a type, a yes and an address that there is, numbers that are unlike.
const STEP_WORDS: [u64; 12] = [84, 85, 5, 86, 87, 1, 4 << 16 | 88, 89, 0, 90, 91, 92];

fn record(clock: Time, stage: u8) -> Record {
    let mut record = FULL;
    record[CLOCK..][..2].copy_from_slice(&clock.words());
    record[STAGE] = stage.into();
    for at in STEPS[usize::from(stage)] {
        record[STEP + at] = STEP_WORDS[*at];
    }
    record
}

/// An answer that says no and nothing else.
fn refused(number: u8) -> Answer {
    let mut answer = [0; 14];
    answer[1] = number.into();
    answer
}

const NOTHING: Answer = [1, 0, 0, 0, 0, 0, 0, 0, 0, 0, 0, 0, 0, 0];

/// What `upkeep` did, by the first two words of its answer.
fn stepped(answer: &Answer) -> Did {
    match answer[..2] {
        [0, number] => Did::Refused(number as u8),
        [1, 0] => Did::Done,
        _ => Did::Broken,
    }
}

/// What a query did.
fn replied(reply: &Reply) -> Did {
    match reply[..2] {
        [0, number] => Did::Refused(number as u8),
        [1, 0] => Did::No,
        [2..=6, 0] => Did::Done,
        _ => Did::Broken,
    }
}

/// In the domain, or of a class outside it.
fn report(rust: Did, ours: Did, diff: Diff, class: Option<Class>, changed: bool) -> Report {
    let verdict = class.map_or(Verdict::Equal, |_| Verdict::Outside);
    let mut report = Report::new(rust, ours, diff.verdict(verdict));
    report.beyond.extend(class.map(|class| Beyond {
        class,
        did: rust,
        changed,
    }));
    report
}
