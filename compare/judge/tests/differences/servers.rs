//! A server's clock, limit and queries.

use std::iter::empty;
use std::time::Duration;

use oracle::servers::{caught, pending, server_with, Record as Theirs};
use ours::servers::{self, Answer, STAGE};
use ours::tables::PLACE_WORDS;

use crate::common::panicked;
use crate::set_up::{at, limited, set_up, Ours, LAST, NOTHING};

fn refused(number: u64) -> Answer {
    let mut answer = [0; 14];
    answer[1] = number;
    answer
}

fn waiting(expiry: u64) -> Theirs {
    Theirs {
        client_id: 0,
        addr: ([127, 0, 0, 1], 1).into(),
        received: Duration::ZERO,
        user_data: [0; 256],
        expiry,
    }
}

/// One pending place, used, with this expiry.
fn pending_table(expiry: u64) -> [u64; PLACE_WORDS] {
    let mut table = [7; PLACE_WORDS];
    (table[0], table[5 + 15]) = (1, expiry);
    table
}

#[test]
fn row_43_an_update_past_the_clocks_range() {
    let second = Duration::from_secs(1);
    let mut server = server_with(second, 1, empty(), [waiting(0)].into_iter());
    let step = Duration::from_secs(LAST);
    assert!(panicked(caught(|| server.update(step))));
    assert_eq!(server.current_time(), second);
    assert_eq!(pending(&server).len(), 1);
    let (mut record, mut table) = (set_up(at([1, 0]), 1, &[]).record, pending_table(0));
    let before = record;
    let answer = servers::update(&mut record, &mut table, [LAST, 0]);
    assert_eq!((answer, record), (refused(20), before));
    assert_eq!(table, pending_table(0));
}

#[test]
fn row_44_a_call_while_an_ask_is_open() {
    for stage in 1..10 {
        let mut ours = set_up(limited(1), 1, &[]);
        ours.record[STAGE] = stage;
        let (before, mut table) = (ours.record, pending_table(0));
        let answer = servers::update(&mut ours.record, &mut table, [1, 0]);
        assert_eq!((answer, table), (refused(16), pending_table(0)));
        let answer = servers::set_max_clients(&mut ours.record, 0);
        assert_eq!((answer, ours.record), (refused(16), before));
        let count = servers::connected_clients(&ours.record, &ours.slots);
        assert_eq!(count, [3, 0, 0, 0, 0]);
    }
}

/// One slot, used, by client 5.
fn seated() -> Ours {
    let mut ours = set_up(limited(1), 1, &[]);
    (ours.slots[0], ours.slots[1]) = (1, 5);
    ours
}

#[test]
fn row_45_a_list_that_is_too_short() {
    let ours = seated();
    let short = [0, 14, 0, 0, 0];
    assert_eq!(
        servers::clients_id(&ours.record, &ours.slots, &mut []),
        short
    );
    assert_eq!(
        servers::clients_slot(&ours.record, &ours.slots, &mut []),
        short
    );
    let public = [4 << 16, 0, 0];
    let (ours, mut list) = (set_up(limited(1), 1, &public), [8; 2]);
    assert_eq!(servers::addresses(&ours.record, &public, &mut list), short);
    assert_eq!(list, [8; 2]);
}

#[test]
fn row_46_a_table_of_another_length_than_set_ups() {
    let (mut ours, mut list) = (seated(), [8; 2]);
    let other = [0, 23, 0, 0, 0];
    let two = vec![1; 2 * PLACE_WORDS];
    for lent in [&two[..], &two[..PLACE_WORDS - 1], &[]] {
        assert_eq!(servers::connected_clients(&ours.record, lent), other);
        assert_eq!(servers::is_client_connected(&ours.record, lent, 5), other);
        assert_eq!(servers::clients_id(&ours.record, lent, &mut list), other);
        let mut pending = lent.to_vec();
        let answer = servers::update(&mut ours.record, &mut pending, [1, 0]);
        assert_eq!((answer, &pending[..]), (refused(23), lent));
    }
    assert_eq!(servers::addresses(&ours.record, &[0; 3], &mut list), other);
    assert_eq!((list, servers::itself(&ours.record)), ([8; 2], [1, 0, 0]));
}

#[test]
fn row_50_what_an_expired_place_keeps() {
    let waiting = [waiting(0)].into_iter();
    let mut server = server_with(Duration::ZERO, 1, empty(), waiting);
    server.update(Duration::from_secs(1));
    assert!(pending(&server).is_empty());
    let (mut record, mut table) = (set_up(limited(1), 1, &[]).record, pending_table(0));
    assert_eq!(servers::update(&mut record, &mut table, [1, 0]), NOTHING);
    let mut emptied = pending_table(0);
    emptied[0] = 0;
    assert_eq!(table, emptied, "keys and user data too");
}

/// Row 30 by the query.
#[test]
fn row_30_a_client_heard_of_later_than_now() {
    let slot = Theirs {
        received: Duration::from_nanos(1),
        ..waiting(0)
    };
    let server = server_with(Duration::ZERO, 1, [Some(slot)].into_iter(), empty());
    let since = caught(|| server.time_since_last_received_packet(0));
    assert!(panicked(since));
    let mut ours = seated();
    (ours.slots[5 + 9], ours.slots[5 + 10]) = (0, 1);
    let since = servers::time_since_last_received_packet(&ours.record, &ours.slots, 5);
    assert_eq!(since, [5, 0, 0, 0, 0]);
}
