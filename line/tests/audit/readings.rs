//! Readings that are counted wrongly.

use line::book::{Cause, Change};
use line::fault::{Fault, Wrong};

use crate::story::{good, judge, Story, KEEP_ALIVE};

fn wrong(pump: u64, number: u64, wrong: Wrong) -> Fault {
    Fault::Reading {
        pump,
        number,
        wrong,
    }
}

#[test]
fn a_good_run_is_good() {
    let report = judge(&[good(1), good(2)]);
    assert_eq!(report.faults, []);
    assert_eq!((report.made, report.counted), (10, 8));
    assert_eq!((report.lost, report.late), (2, 0));
    assert!(report.is_good());
}

#[test]
fn a_run_without_readings_is_not_good() {
    let report = judge(&[Story::with_readings(1, 5)]);
    assert_eq!(report.faults, []);
    assert_eq!(report.lost, 5);
    assert!(!report.is_good());
}

#[test]
fn counted_twice() {
    let mut story = good(1);
    story.count(&[3]);
    let report = judge(&[story, good(2)]);
    assert_eq!(report.faults, [wrong(1, 3, Wrong::Repeated(2))]);
    assert!(!report.is_good());
}

#[test]
fn not_counted() {
    let mut story = good(1);
    story.counted.remove(0);
    story.record.acknowledged.clear();
    assert_eq!(story.faults(), [wrong(1, 1, Wrong::Missing)]);
}

#[test]
fn booked_to_each_other() {
    let (mut one, mut two) = (good(1), good(2));
    one.counted[0].client_id = 2;
    two.counted[0].client_id = 1;
    let misbooked = |pump, client_id| wrong(pump, 1, Wrong::BookedTo(client_id));
    let faults = judge(&[one, two]).faults;
    assert_eq!(faults, [misbooked(1, 2), misbooked(2, 1)]);
}

#[test]
fn counted_and_never_delivered() {
    let mut story = good(1);
    story.count(&[5]);
    assert_eq!(story.faults(), [wrong(1, 5, Wrong::Unexpected)]);
}

#[test]
fn no_pump_made_it() {
    let mut story = good(1);
    story.counted[0].payload = vec![7];
    story.record.acknowledged.clear();
    let unknown = Fault::Unknown {
        client_id: 1,
        payload: vec![7],
    };
    assert_eq!(story.faults(), [unknown, wrong(1, 1, Wrong::Missing)]);
}

#[test]
fn the_window_has_256_places() {
    let mut story = Story::with_readings(1, 300);
    story.deliver(&[300, 45, 44, 45]);
    story.count(&[300, 45]);
    let report = judge(&[story]);
    assert_eq!(report.faults, []);
    assert_eq!((report.lost, report.late), (297, 1));

    let mut story = Story::with_readings(1, 300);
    story.deliver(&[300, 45, 44]);
    story.count(&[300, 44]);
    let late = wrong(1, 44, Wrong::Unexpected);
    assert_eq!(story.faults(), [late, wrong(1, 45, Wrong::Missing)]);
}

#[test]
fn keep_alives_move_the_window_too() {
    let mut story = Story::with_readings(1, 1);
    story.send(KEEP_ALIVE, 258);
    story.deliver(&[1]);
    story.count(&[1]);
    assert_eq!(story.faults(), [wrong(1, 1, Wrong::Unexpected)]);
}

#[test]
fn what_no_pump_sealed_moves_nothing() {
    let mut story = Story::with_readings(1, 1);
    story.arrives(vec![0x25, 0xFF, 0xFF, 1]);
    story.deliver(&[1]);
    story.count(&[1]);
    assert_eq!(story.faults(), []);
}

#[test]
fn after_the_end_nothing_counts() {
    let mut story = Story::with_readings(1, 2);
    story.deliver(&[1]);
    story.count(&[1]);
    story.event(Change::Ended(Cause::Server));
    story.deliver(&[2]);
    let report = judge(&[story]);
    assert_eq!(report.faults, []);
    assert_eq!(report.late, 1);
}

#[test]
fn after_the_end_it_was_counted() {
    let mut story = Story::with_readings(1, 1);
    story.event(Change::Ended(Cause::Server));
    story.deliver(&[1]);
    story.count(&[1]);
    assert_eq!(story.faults(), [wrong(1, 1, Wrong::Unexpected)]);
}

#[test]
fn acknowledgements_are_for_counted_readings() {
    let mut story = good(1);
    story.record.acknowledged.push(1);
    assert_eq!(story.faults(), [wrong(1, 1, Wrong::AcknowledgedTwice)]);
    let mut story = good(1);
    story.record.acknowledged.push(5);
    let uncounted = wrong(1, 5, Wrong::AcknowledgedUncounted);
    assert_eq!(story.faults(), [uncounted]);
}
