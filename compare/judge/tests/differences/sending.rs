//! What a server sends of its own accord, through whole servers.

use chacha20poly1305::watch;
use oracle::lives::Words;

use crate::came::Came;
use crate::common::checked;
use crate::pair::{Both, Pair};
use crate::pumps::{opened, HERE};

const LAST: u64 = u64::MAX;

/// Where in a connection's words.
const RECEIVED: usize = 9;
const SENT: usize = 11;
const SEQUENCE: usize = 14;

/// One pump, connected, with its words changed.
fn one(change: impl Fn(&mut Words)) -> Pair {
    let mut pair = Pair::new(1);
    pair.connect(1, HERE);
    pair.poke(0, change);
    pair
}

/// Its counter is spent.
fn spent() -> Pair {
    one(|words| words[SEQUENCE] = LAST)
}

/// The Rust sends a packet of this length under the last sequence, and its counter wraps to 0; or it panics
/// and nothing has changed. Ours is 15, and nothing has changed.
fn wraps(pair: &mut Pair, call: impl Fn(&mut Pair) -> Both, len: usize) {
    let before = pair.ours.clone();
    let (rust, ours) = call(pair);
    let unsent = |pair: &Pair| {
        let mut same = before.clone();
        same.lent.out.clone_from(&pair.ours.lent.out);
        pair.ours == same
    };
    assert_eq!((ours, unsent(pair)), (Came::Refused(15), true));
    let sequence = oracle::lives::slot(&pair.theirs, 0).expect("connected").2[SEQUENCE];
    if checked() {
        assert_eq!((rust, sequence), (Came::Panicked, LAST));
        pair.agree();
        return;
    }
    let Came::ToSend(to, packet) = rust else {
        panic!("the Rust sends nothing but {rust:?}")
    };
    assert_eq!((to, packet.len(), sequence), (HERE, len, 0));
    assert_eq!(opened(&packet).0, LAST);
}

#[test]
fn row_55_a_payload_under_the_last_sequence() {
    wraps(&mut spent(), |pair| pair.payload(1, &[]), 25);
}

#[test]
fn row_56_a_keep_alive_under_the_last_sequence() {
    let mut pair = spent();
    pair.update(0, 250_000_000);
    wraps(&mut pair, |pair| pair.update_client(1), 33);
}

#[test]
fn row_57_a_disconnect_under_the_last_sequence() {
    let ends = |mut pair: Pair, call: fn(&mut Pair) -> Both| {
        let (rust, ours) = call(&mut pair);
        assert_eq!(ours, Came::Ended(1, HERE, 15));
        let Came::Disconnected(1, HERE, Some(packet)) = rust else {
            panic!("the Rust ends it otherwise: {rust:?}")
        };
        assert_eq!((packet.len(), opened(&packet).0), (25, LAST));
        pair.agree();
        assert_eq!(pair.theirs.connected_clients(), 0);
    };
    ends(spent(), |pair| pair.disconnect(1));
    let mut overdue = spent();
    overdue.update(1, 1);
    ends(overdue, |pair| pair.update_client(1));
}

#[test]
fn row_58_times_past_the_end_of_the_clock() {
    let panics = |mut pair: Pair| {
        assert_eq!(pair.update_client(1), (Came::Panicked, Came::Nothing));
        pair.agree();
    };
    panics(one(|words| words[RECEIVED] = LAST));
    panics(one(|words| {
        words[SENT] = LAST;
        words[SENT + 1] = 750_000_000;
    }));
    // A nanosecond earlier there is a sum, on both sides.
    let mut pair = one(|words| {
        words[SENT] = LAST;
        words[SENT + 1] = 749_999_999;
    });
    assert_eq!(pair.update_client(1), (Came::Nothing, Came::Nothing));
}

#[test]
fn row_59_an_output_that_is_too_short() {
    let short = |pair: &Pair, room: usize| {
        let mut ours = pair.ours.clone();
        ours.lent.out = vec![8; room];
        ours
    };
    // Under sequence 0, which a pump's first keep-alive has used: poked back.
    let pair = one(|words| words[SEQUENCE] = 0);
    for (room, refused) in [(16, true), (17, false)] {
        let (before, mut ours) = (short(&pair, room), short(&pair, room));
        let answer = ours.disconnect(1);
        assert_eq!(answer[..2], if refused { [0, 14] } else { [6, 0] });
        assert_eq!(ours == before, refused);
    }
    let mut ours = short(&pair, 17);
    assert_eq!(ours.generate_payload_packet(1, &[0])[..2], [0, 14]);
    assert_eq!(ours, short(&pair, 17));
    let mut late = one(|words| words[SEQUENCE] = 0);
    late.update(0, 250_000_000);
    let mut ours = short(&late, 24);
    assert_eq!(ours.update_client(1)[..2], [0, 14]);
    assert_eq!(ours, short(&late, 24));
    // 15 before 14.
    let mut ours = short(&spent(), 0);
    assert_eq!(ours.generate_payload_packet(1, &[])[..2], [0, 15]);
}

/// With a cipher that refuses to seal, on both sides.
fn unsealed(pair: &mut Pair, call: impl Fn(&mut Pair) -> Both) -> Both {
    watch::refuse_seals(true);
    let came = call(pair);
    watch::refuse_seals(false);
    pair.agree();
    came
}

#[test]
fn row_60_the_host_says_no_to_a_seal() {
    let mut pair = one(|_| {});
    let came = unsealed(&mut pair, |pair| pair.payload(1, &[7; 9]));
    assert_eq!(came, (Came::Failed, Came::Refused(24)));
    pair.update(0, 250_000_000);
    let came = unsealed(&mut pair, |pair| pair.update_client(1));
    assert_eq!(came, (Came::Nothing, Came::Refused(24)));
    let ended = (Came::Disconnected(1, HERE, None), Came::Ended(1, HERE, 24));
    let mut other = one(|_| {});
    let came = unsealed(&mut other, |pair| pair.disconnect(1));
    assert_eq!(came, ended);
    pair.update(1, 0);
    let came = unsealed(&mut pair, |pair| pair.update_client(1));
    assert_eq!(came, ended, "overdue");
}

#[test]
fn row_73_what_a_no_to_a_seal_leaves_in_the_output() {
    let mut pair = one(|_| {});
    let came = unsealed(&mut pair, |pair| pair.payload(1, &[7; 9]));
    assert_eq!(came, (Came::Failed, Came::Refused(24)));
    let out = &pair.ours.lent.out;
    assert_eq!(out[..11], [0x15, 1, 7, 7, 7, 7, 7, 7, 7, 7, 7]);
}
