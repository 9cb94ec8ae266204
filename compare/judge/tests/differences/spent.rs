//! The counters of a datagram's answers at their end, through whole servers.

use oracle::lives;

use crate::came::Came;
use crate::common::checked;
use crate::pair::{Both, Pair};
use crate::pumps::{opened, request, response, token, HERE, THERE};

const LAST: u64 = u64::MAX;

/// Ours is 15; the Rust panics where sums are checked, and else sends a packet of this type and sequence.
fn spent((rust, ours): Both, kind: u8, sequence: u64) {
    assert_eq!(ours, Came::Refused(15));
    if checked() {
        assert_eq!(rust, Came::Panicked);
        return;
    }
    let (Came::ToSend(HERE, packet) | Came::Connected(_, HERE, packet)) = rust else {
        panic!("the Rust sends nothing but {rust:?}")
    };
    let (used, fields) = opened(&packet);
    assert_eq!((used, fields.kind), (sequence, kind));
}

fn theirs(pair: &Pair) -> [u64; 2] {
    lives::counters(&pair.theirs)
}

#[test]
fn row_62_the_challenge_counter_is_spent() {
    let mut pair = Pair::new(1);
    pair.put_counters([5, LAST]);
    spent(pair.datagram(HERE, &request(&token(1), 100)), 2, 5);
    assert_eq!((pair.counters(), pair.entries()), ([5, LAST], [1, 1]));
    if checked() {
        assert_eq!((theirs(&pair), pair.waiting()), ([5, LAST], [0, 0]));
    } else {
        assert_eq!((theirs(&pair), pair.waiting()), ([6, 0], [1, 0]));
    }
}

#[test]
fn row_63_the_global_counter_is_spent_at_a_challenge() {
    let mut pair = Pair::new(1);
    pair.put_counters([LAST, 5]);
    spent(pair.datagram(HERE, &request(&token(1), 100)), 2, LAST);
    assert_eq!((pair.counters(), pair.entries()), ([LAST, 6], [1, 1]));
    if checked() {
        assert_eq!((theirs(&pair), pair.waiting()), ([LAST, 6], [0, 0]));
    } else {
        assert_eq!((theirs(&pair), pair.waiting()), ([0, 6], [1, 0]));
    }
}

#[test]
fn row_64_the_global_counter_is_spent_at_a_denial() {
    let wrapped = if checked() { LAST } else { 0 };
    // By a request, under a limit of nobody; the sender waits no more.
    let mut pair = Pair::new(1);
    pair.challenge(1, HERE);
    pair.theirs.set_max_clients(0);
    pair.ours.set_max_clients(0);
    pair.put_counters([LAST, 5]);
    spent(pair.datagram(HERE, &request(&token(1), 100)), 1, LAST);
    assert_eq!((pair.counters(), theirs(&pair)), ([LAST, 5], [wrapped, 5]));
    assert_eq!(pair.waiting(), [0, 0]);
    // By a response, where no slot is free.
    let mut pair = Pair::new(1);
    let challenge = pair.challenge(1, HERE);
    pair.connect(2, THERE);
    pair.put_counters([LAST, 5]);
    spent(pair.datagram(HERE, &response(&challenge)), 1, LAST);
    assert_eq!((pair.counters(), theirs(&pair)), ([LAST, 5], [wrapped, 5]));
    assert_eq!(pair.waiting(), [0, 0]);
}

#[test]
fn row_65_the_counter_of_one_who_waits_is_spent() {
    let mut pair = Pair::new(1);
    let challenge = pair.challenge(1, HERE);
    pair.poke_pending(HERE, |words| words[14] = LAST);
    spent(pair.datagram(HERE, &response(&challenge)), 4, LAST);
    assert_eq!(pair.waiting(), [0, 0]);
    assert_eq!(pair.ours.lent.slots[0], 0);
    let connected = pair.theirs.connected_clients();
    assert_eq!(connected, usize::from(!checked()));
}
