//! Document 01's figures of packets, window, requests, timeout and expiry ("Figures on both sides"), from the
//! Rust and from ours. Of what the rows of differences stand on, only a part is needed here.

#[allow(dead_code)]
#[path = "differences/came.rs"]
mod came;
#[allow(dead_code)]
#[path = "differences/common.rs"]
mod common;
#[allow(dead_code)]
#[path = "differences/pair.rs"]
mod pair;
#[allow(dead_code)]
#[path = "differences/pumps.rs"]
mod pumps;

use std::iter::empty;
use std::time::Duration;

use came::Came;
use common::is;
use oracle::calls::{self as rust, Fault, Fields};
use oracle::servers::{pending, server_with, Record};
use oracle::tables::{update_client, Updated};
use ours::{calls, servers, tables, Packet};
use pair::Pair;
use pumps::{request, token, HERE};

const KEY: [u8; 32] = [3; 32];

/// The packet as both sides encode it, and the text that both hand to the cipher.
fn encoded(kind: u8, a: u64, b: u64, sequence: u64) -> (Vec<u8>, Vec<u8>) {
    let bytes = Vec::new();
    let theirs = rust::encode(
        vec![0; 40],
        &Fields { kind, a, b, bytes },
        7,
        Some(&KEY),
        sequence,
    );
    let mut theirs = is(theirs);
    let packet = Packet {
        kind,
        a,
        b,
        bytes: &[],
    };
    let ours = ours::encode(vec![0; 40], &packet, 7, Some(&KEY), sequence);
    assert_eq!(ours.out, theirs.out);
    assert_eq!(Ok(ours.length as usize), theirs.result);
    theirs.out.truncate(ours.length as usize);
    (theirs.out, theirs.asked.remove(0).text)
}

/// The number that both sides refuse a datagram by, 0 where it is read.
fn refusal(datagram: &[u8]) -> u64 {
    let theirs = match is(rust::decode(datagram.to_vec(), 7, Some(&KEY), None)).result {
        Ok(_) => 0,
        Err(Fault::PacketTooSmall) => 1,
        Err(Fault::IoError) => 9,
        Err(other) => panic!("{other:?}"),
    };
    assert_eq!(
        ours::decode(datagram.to_vec(), 7, Some(&KEY), None).number,
        theirs
    );
    theirs
}

#[test]
fn heads() {
    for (kind, sequence, bytes) in [
        (4, 0, &[0x04][..]),
        (5, 255, &[0x15, 0xFF]),
        (5, 256, &[0x25, 0, 1]),
        (5, u64::MAX, &[0x85, 255, 255, 255, 255, 255, 255, 255, 255]),
    ] {
        assert_eq!(encoded(kind, 0, 0, sequence).0[..bytes.len()], *bytes);
    }
}

#[test]
fn a_keep_alive() {
    let (packet, text) = encoded(4, 3, 8, 0);
    assert_eq!(text, [3, 0, 0, 0, 8, 0, 0, 0]);
    assert_eq!(packet.len(), 25);
}

#[test]
fn additional_data() {
    let whole = b"NETCODE 1.02\0\x07\0\0\0\0\0\0\0\x04";
    assert_eq!(rust::additional_data(4, 7), *whole);
    assert_eq!(calls::additional_data(4, 7), *whole);
}

#[test]
fn disconnects_and_requests_by_their_length() {
    let (short, _) = encoded(6, 0, 0, 0);
    assert_eq!((short.len(), refusal(&short)), (17, 1));
    let (long, _) = encoded(6, 0, 0, 1);
    assert_eq!((long.len(), refusal(&long)), (18, 0));
    assert_eq!(refusal(&[0; 1077]), 9);
    assert_eq!(refusal(&[0; 1078]), 0);
}

/// Whether the window has received the sequence, as both sides say.
fn received(window: &rust::Window, sequence: u64) -> bool {
    let received = is(rust::already_received(window, sequence));
    let refusal = if received { 6 } else { 0 };
    assert_eq!(calls::refusal(window, sequence), refusal);
    received
}

#[test]
fn the_window() {
    let fresh = rust::new_window();
    let after = |sequence| is(rust::advance(&fresh, sequence));
    assert!(received(&after(300), 44));
    assert!(!received(&after(300), 45));
    assert!(!received(&after(0), 256));
    assert!(received(&is(rust::advance(&after(0), 256)), 0));
    assert!(!received(&fresh, u64::MAX - 256));
    // The Rust's sum wraps or panics here: docs/DIFFERENCES.md, row 7.
    assert_eq!(calls::refusal(&fresh, u64::MAX - 255), 5);
}

/// Whether a client is timed out, as both sides say: received at 10 s, a timeout of 15.
fn timed_out(now: Duration) -> bool {
    let received = Duration::from_secs(10);
    let updated = is(update_client(now, received, now, 15)) == Updated::Disconnected;
    let words = [now.as_secs(), now.subsec_nanos().into()];
    assert_eq!(tables::time_past([10, 0], 15, words), updated.into());
    updated
}

#[test]
fn a_timeout() {
    let last = Duration::from_secs(25);
    assert!(!timed_out(last));
    assert!(timed_out(last + Duration::from_nanos(1)));
    // The test for a timeout over 0 is the server's, which calls the sum after it.
    for never in [0, -1] {
        let updated = update_client(Duration::MAX, Duration::ZERO, Duration::ZERO, never);
        assert_eq!(is(updated), Updated::KeptAlive);
    }
}

#[test]
fn a_request_is_refused_in_the_second_of_its_expiry() {
    for (secs, nanos, number) in [(99, 999_999_999, None), (100, 0, Some(12))] {
        let mut pair = Pair::new(1);
        pair.update(secs, nanos);
        let came = pair.agreed(HERE, &request(&token(1), 100));
        match number {
            Some(number) => assert_eq!(came, Came::Refused(number)),
            None => assert!(matches!(came, Came::ToSend(..)), "{came:?}"),
        }
    }
}

#[test]
fn a_request_of_1077_bytes_is_short() {
    let whole = request(&token(1), 100);
    assert_eq!(whole.len(), 1078);
    let mut pair = Pair::new(1);
    assert_eq!(pair.agreed(HERE, &whole[..1077]), Came::Refused(9));
    let came = pair.agreed(HERE, &whole);
    assert!(matches!(came, Came::ToSend(..)), "{came:?}");
}

#[test]
fn a_pending_client_stays_in_the_second_of_its_expiry() {
    let last = 999_999_999;
    for (secs, nanos, stays) in [(100, 0, true), (100, last, true), (101, 0, false)] {
        let waiting = Record {
            client_id: 0,
            addr: ([127, 0, 0, 1], 1).into(),
            received: Duration::ZERO,
            user_data: [0; 256],
            expiry: 100,
        };
        let mut server = server_with(Duration::ZERO, 1, empty(), [waiting].into_iter());
        server.update(Duration::new(secs, nanos));
        assert_eq!(pending(&server).len(), usize::from(stays));
        let (mut record, mut table) = ([0; 34], [0; tables::PLACE_WORDS]);
        record[servers::PENDING] = 1;
        (table[0], table[5 + 15]) = (1, 100);
        let answer = servers::update(&mut record, &mut table, [secs, nanos.into()]);
        assert_eq!(answer, [1, 0, 0, 0, 0, 0, 0, 0, 0, 0, 0, 0, 0, 0]);
        assert_eq!(table[0], u64::from(stays));
    }
}
