#![cfg(not(feature = "idle"))]

use std::net::SocketAddr;
use std::time::Duration;

use oracle::calls::Answer;
use oracle::tables::*;

const SECOND: Duration = Duration::from_secs(1);

fn at(port: u16) -> SocketAddr {
    ([127, 0, 0, 1], port).into()
}

fn is<T>(answer: Answer<T>) -> T {
    match answer {
        Answer::Is(value) => value,
        Answer::Panicked { .. } => panic!("the call panicked"),
    }
}

fn panicked<T>(answer: Answer<T>) -> bool {
    matches!(answer, Answer::Panicked { .. })
}

#[test]
fn entries_are_given_and_read_back() {
    let stored = |place: usize| (place != 3).then_some((SECOND, at(1), [1; 16]));
    let mut entries = Entries::new((0..2048).map(stored));
    assert!(!entries.find_or_add((SECOND, at(2), [1; 16])));
    let added = (2 * SECOND, at(2), [2; 16]);
    assert!(entries.find_or_add(added));
    let expected: Vec<Option<Entry>> = (0..2048)
        .map(|place| stored(place).or(Some(added)))
        .collect();
    assert_eq!(entries.all().collect::<Vec<_>>(), expected);
}

#[test]
fn all_searches_take_the_lowest_place() {
    let slots = [None, Some((5, at(1))), Some((5, at(1))), Some((6, at(2)))];
    let mut slots = Slots::new(slots.into_iter());
    assert_eq!(slots.by_address(at(1)), Some(1));
    assert_eq!(slots.client_by_address(at(1)), Some(1));
    assert_eq!(slots.by_id(5), Some(1));
    assert_eq!(slots.clients_by_id(5), [Some(1); 2]);
    assert_eq!((slots.by_address(at(3)), slots.by_id(7)), (None, None));
    assert_eq!(slots.connected_clients(), 3);
    assert_eq!(slots.clients_slot(), [1, 2, 3]);
}

/// Also where the ids and addresses that a newcomer would take first are taken.
#[test]
fn a_newcomer_takes_free_places_in_their_order() {
    let slots = [
        None,
        Some((u64::MAX, at(0))),
        None,
        Some((u64::MAX - 1, at(1))),
    ];
    let mut slots = Slots::new(slots.into_iter());
    assert_eq!(slots.take_free(), Some(0));
    assert_eq!(slots.take_free(), Some(2));
    assert_eq!(slots.take_free(), None);
    assert_eq!(Slots::new([].into_iter()).take_free(), None);
}

#[test]
fn the_pending_clients_are_asked() {
    let pending = || [at(1), at(2)].into_iter();
    assert!(is_pending(pending(), at(2)));
    assert!(!is_pending(pending(), at(3)));
}

#[test]
fn a_token_must_name_a_host() {
    assert!(is_in_host_list(&[at(1), at(2)], &[at(3), at(2)]));
    assert!(!is_in_host_list(&[at(1)], &[at(3)]));
    assert!(!is_in_host_list(&[], &[at(3)]));
    assert!(!is_in_host_list(&[at(3)], &[]));
    assert!(is_in_host_list(&[at(1); 32], &[at(1)]));
}

#[test]
fn the_clock_is_asked() {
    assert_eq!(update(SECOND, SECOND), (Answer::Is(()), 2 * SECOND));
    let (answer, clock) = update(Duration::MAX, SECOND);
    assert!(panicked(answer));
    assert_eq!(clock, Duration::MAX);
    let late = Duration::from_nanos(1);
    assert!(is_before(SECOND, SECOND + late));
    assert!(!is_before(SECOND, SECOND));
    assert!(!is_before(Duration::MAX, Duration::MAX));
    let zero = Duration::ZERO;
    let updated = |now, received, sent, timeout| is(update_client(now, received, sent, timeout));
    assert_eq!(updated(SECOND + late, zero, zero, 1), Updated::Disconnected);
    assert_eq!(updated(SECOND, zero, zero, 1), Updated::KeptAlive);
    assert_eq!(updated(SECOND, zero, SECOND, 1), Updated::Nothing);
    assert!(panicked(update_client(zero, Duration::MAX, zero, 1)));
    let since = time_since_last_received_packet(SECOND, late);
    assert_eq!(is(since), Some(SECOND - late));
    assert!(panicked(time_since_last_received_packet(zero, late)));
}

#[test]
fn addresses_are_four_bytes_or_sixteen() {
    let mut bytes = [0; 16];
    bytes[..4].copy_from_slice(&[127, 0, 0, 1]);
    assert_eq!(address(4, &bytes, 9), Some(at(9)));
    assert_eq!(address(6, &[0; 16], 9), Some("[::]:9".parse().unwrap()));
    assert_eq!(address(5, &bytes, 9), None);
    bytes[15] = 1;
    assert_eq!(address(4, &bytes, 9), None);
}
