//! Times. The Rust's sums of times are the standard library's, which are checked in both builds.

use std::time::Duration;

use oracle::tables::{time_since_last_received_packet, update, update_client, Updated};
use ours::tables::{self, Address, ENTRY_BYTES};

use crate::common::{is, panicked};

const LAST: u64 = u64::MAX;
const NONE: Duration = Duration::ZERO;

fn secs(secs: u64) -> Duration {
    Duration::from_secs(secs)
}

#[test]
fn row_29_a_clock_past_its_range() {
    let (answer, clock) = update(secs(1), secs(LAST));
    assert!(panicked(answer));
    assert_eq!(clock, secs(1));
    let mut out = [7, 7];
    assert_eq!(tables::time_add([1, 0], [LAST, 0], &mut out), 20);
    assert_eq!(out, [7, 7]);
    // The last time that there is.
    assert_eq!(update(secs(0), Duration::MAX).1, Duration::MAX);
    assert_eq!(tables::time_add([0, 0], [LAST, 999_999_999], &mut out), 0);
    assert_eq!(out, [LAST, 999_999_999]);
}

#[test]
fn row_30_a_packet_received_later_than_now() {
    let later = Duration::from_nanos(1);
    assert!(panicked(time_since_last_received_packet(NONE, later)));
    assert_eq!(tables::time_since([0, 0], [0, 1]), [0, 0]);
    assert_eq!(tables::time_since([0, 0], [LAST, 0]), [0, 0]);
}

#[test]
fn row_31_a_timeout_past_the_end_of_the_clock() {
    for now in [NONE, Duration::MAX] {
        assert!(panicked(update_client(now, secs(LAST), NONE, 1)));
    }
    assert_eq!(tables::time_past([LAST, 0], 1, [0, 0]), 0);
    assert_eq!(tables::time_past([LAST, 0], 1, [LAST, 999_999_999]), 0);
}

#[test]
fn row_32_a_keep_alive_past_the_end_of_the_clock() {
    let sent = Duration::new(LAST, 750_000_000);
    for now in [NONE, Duration::MAX] {
        assert!(panicked(update_client(now, NONE, sent, 0)));
    }
    assert_eq!(
        tables::time_due([LAST, 750_000_000], [LAST, 999_999_999]),
        0
    );
    // One nanosecond earlier there is a sum, on both sides.
    let sent = Duration::new(LAST, 749_999_999);
    let updated = update_client(Duration::MAX, NONE, sent, 0);
    assert_eq!(is(updated), Updated::KeptAlive);
    assert_eq!(
        tables::time_due([LAST, 749_999_999], [LAST, 999_999_999]),
        1
    );
}

#[test]
fn row_33_nanoseconds_that_make_a_second() {
    const SECOND: u64 = 1_000_000_000;
    assert_eq!(
        Duration::new(0, SECOND as u32),
        secs(1),
        "the Rust has no such time"
    );
    let long = [0, SECOND];
    assert_eq!(tables::time_before(long, [1, 0]), 0);
    assert_eq!(tables::time_before(long, [1, 1]), 1);
    assert_eq!(tables::time_past(long, 1, [2, 0]), 0);
    assert_eq!(tables::time_due(long, [1, 250_000_000]), 1);
    assert_eq!(tables::time_since([1, 0], long), [0, 0]);
    let mut out = [7, 7];
    assert_eq!(tables::time_add(long, [0, 0], &mut out), 0);
    assert_eq!(out, [1, 0]);
    // A difference has more seconds than a word holds only of such a time.
    assert_eq!(tables::time_since([LAST, SECOND], [0, 0]), [LAST, SECOND]);
}

#[test]
fn row_34_a_timeout_that_the_server_does_not_test() {
    for (timeout, words) in [(0, 0), (i32::MIN, 1 << 31)] {
        let updated = update_client(secs(1 << 32), NONE, NONE, timeout);
        assert_eq!(is(updated), Updated::KeptAlive);
        assert_eq!(tables::time_past([0, 0], words, [1 << 32, 0]), 1);
    }
}

#[test]
fn row_39_an_entry_keeps_four_bytes_of_nanoseconds() {
    let nobody = Address {
        kind: 4,
        bytes: [0; 16],
        port: 0,
    };
    let mut table = [0; ENTRY_BYTES];
    let added = tables::find_or_add_entry(&mut table, [0, 1 << 32], &nobody, &[0; 16]);
    assert_eq!(added, 1);
    assert_eq!(table[1..13], [0; 12], "no clock has so many");
}
