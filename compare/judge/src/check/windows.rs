//! The window by itself: tested and advanced, by value and in place.

use oracle::calls as rust;
use oracle::calls::Answer;
use ours::calls;

use super::{ours_did, Beyond, Class, Did, Diff, Report, Verdict};
use crate::case::{Window, EMPTY, HIGH};

pub fn check(window: &Window, sequence: u64) -> Report {
    let received = match rust::already_received(window, sequence) {
        Answer::Is(true) => Did::Refused(6),
        Answer::Is(false) => Did::Done,
        Answer::Panicked { .. } => Did::Panicked,
    };
    if sequence >= HIGH {
        outside(window, sequence, received)
    } else {
        inside(window, sequence, received)
    }
}

fn inside(window: &Window, sequence: u64, received: Did) -> Report {
    let mut diff = Diff::default();
    let Answer::Is(advanced) = rust::advance(window, sequence) else {
        diff.fail("the Rust panicked on an advance in the domain");
        return Report::new(received, Did::Done, diff.verdict(Verdict::Equal));
    };
    if received == Did::Panicked {
        diff.fail("the Rust panicked on a test in the domain");
    }
    let old = received == Did::Refused(6);
    let refusal = if old { 6 } else { 0 };
    let expected = if old { window } else { &advanced };
    let ours = answers(window, sequence, old, refusal, expected, &mut diff);
    let mut report = Report::new(received, ours, diff.verdict(Verdict::Equal));
    if old {
        report.beyond.push(Beyond {
            class: Class::OldAdvance,
            did: Did::Done,
            changed: advanced != *window,
        });
    }
    report
}

/// Where the Rust's sum wraps or panics: ours answers by the exact sum, refuses as 5, and stays.
fn outside(window: &Window, sequence: u64, received: Did) -> Report {
    let mut diff = Diff::default();
    let place = window[1 + sequence as usize % 256];
    let old = place != EMPTY && place >= sequence;
    let ours = answers(window, sequence, old, 5, window, &mut diff);
    let verdict = diff.verdict(Verdict::Outside);
    let mut report = Report::new(received, ours, verdict);
    report.beyond.push(Beyond {
        class: Class::HighTest,
        did: received,
        changed: false,
    });
    let (did, changed) = match rust::advance(window, sequence) {
        Answer::Is(advanced) => (Did::Done, advanced != *window),
        Answer::Panicked { .. } => (Did::Panicked, false),
    };
    report.beyond.push(Beyond {
        class: Class::HighAdvance,
        did,
        changed,
    });
    report
}

/// All of our calls on the window; what `refusal` said.
fn answers(
    window: &Window,
    sequence: u64,
    old: bool,
    refusal: u8,
    advanced: &Window,
    diff: &mut Diff,
) -> Did {
    let mut given = *window;
    let received = calls::already_received(&given, sequence);
    diff.number("received", old.into(), received.into());
    let by_value = calls::refusal(&given, sequence);
    diff.number("refusal", refusal.into(), by_value.into());
    let in_place = calls::refusal_at(&given, sequence);
    diff.number("refusal in place", refusal.into(), in_place.into());
    diff.window("window after the tests", Some(window), Some(&given));
    calls::advance_sequence(&mut given, sequence);
    diff.window("window advanced", Some(advanced), Some(&given));
    let mut given = *window;
    calls::advance_at(&mut given, sequence);
    diff.window("window advanced in place", Some(advanced), Some(&given));
    ours_did(by_value.into(), &None)
}
