//! Packets.

use oracle::calls::{self as rust, Fault, Window};
use ours::{calls, Packet};

use crate::common::{checked, fields, is, mine, sealed, theirs, Came, KEY};

const HIGH: u64 = u64::MAX - 255;

/// What the Rust does with a datagram, and that ours refuses it by this number and changes nothing.
fn refused(datagram: &[u8], window: Option<&Window>, ours: u8) -> (Came, Option<Window>) {
    assert_eq!(
        mine(datagram, window),
        (Came::Refused(ours), window.copied())
    );
    theirs(datagram, window)
}

#[test]
fn rows_12_and_13_panics() {
    for (prefix, ours) in [(0x91, 4), (0x21, 7)] {
        let mut datagram = [0; 18];
        datagram[0] = prefix;
        assert_eq!(refused(&datagram, None, ours).0, Came::Panicked);
    }
    // The window refuses first: no panic, and 6 on both sides.
    let window = is(rust::advance(&rust::new_window(), 0));
    let mut short = [0; 18];
    short[0] = 0x25;
    assert_eq!(refused(&short, Some(&window), 6).0, Came::Refused(6));
}

#[test]
fn row_14_one_packet_shuts_the_connection() {
    for sequence in [HIGH + 1, u64::MAX] {
        let fresh = rust::new_window();
        let (came, window) = refused(&sealed(5, 8, sequence, &[]), Some(&fresh), 5);
        if checked() {
            assert_eq!(came, Came::Panicked);
            continue;
        }
        assert_eq!(came, Came::Read(sequence, fields(5, 0, 0, &[])));
        let window = window.expect("it was given");
        assert_eq!(window[0], sequence);
        for next in [1, 300] {
            let came = theirs(&sealed(5, 2, next, &[]), Some(&window)).0;
            assert_eq!(came, Came::Refused(6));
        }
    }
}

#[test]
fn row_15_refused_as_received() {
    let fresh = rust::new_window();
    let good = sealed(5, 8, HIGH, &[]);
    let mut forged = good.clone();
    forged[24] ^= 1;
    for datagram in [&good[..], &forged, &good[..18]] {
        let (came, window) = refused(datagram, Some(&fresh), 5);
        let expected = if checked() {
            Came::Panicked
        } else {
            Came::Refused(6)
        };
        assert_eq!((came, window), (expected, Some(fresh)));
    }
}

#[test]
fn row_16_no_window_given() {
    let good = sealed(5, 8, HIGH, &[]);
    assert_eq!(
        refused(&good, None, 5).0,
        Came::Read(HIGH, fields(5, 0, 0, &[]))
    );
    let mut forged = good.clone();
    forged[24] ^= 1;
    assert_eq!(refused(&forged, None, 5).0, Came::Refused(8));
    assert_eq!(
        refused(&sealed(4, 8, HIGH, &[]), None, 5).0,
        Came::Refused(9)
    );
    assert_eq!(refused(&good[..18], None, 5).0, Came::Panicked);
}

#[test]
fn row_26_short_and_yet_the_window_moves() {
    let fresh = rust::new_window();
    let (came, window) = refused(&sealed(4, 8, HIGH + 1, &[]), Some(&fresh), 5);
    if checked() {
        assert_eq!((came, window), (Came::Panicked, Some(fresh)));
    } else {
        assert_eq!(came, Came::Refused(9));
        assert_eq!(window.expect("it was given")[0], HIGH + 1);
    }
}

#[test]
fn row_27_a_wrong_tag_and_none() {
    let fresh = rust::new_window();
    let mut datagram = vec![0x84];
    datagram.extend_from_slice(&[0xFF; 8]);
    datagram.extend_from_slice(&[0; 16]);
    let (forged, _) = refused(&datagram, Some(&fresh), 5);
    assert_eq!(
        forged,
        if checked() {
            Came::Panicked
        } else {
            Came::Refused(8)
        }
    );
    assert_eq!(refused(&datagram[..18], Some(&fresh), 5).0, Came::Panicked);
}

#[test]
fn row_17_a_short_buffer() {
    for (kind, room, written) in [(1, 1, 1), (4, 9, 9), (4, 24, 9)] {
        let packet = fields(kind, 3, 8, &[]);
        let packet = if kind == 1 {
            fields(1, 0, 0, &[])
        } else {
            packet
        };
        let before = vec![0xAA; room];
        let left = is(rust::encode(before.clone(), &packet, 0, Some(&KEY), 0));
        assert_eq!(left.result, Err(Fault::IoError));
        let clear = [kind, 3, 0, 0, 0, 8, 0, 0, 0];
        assert_eq!(left.out[..written], clear[..written]);
        let (a, b) = (packet.a, packet.b);
        let ours = Packet {
            kind,
            a,
            b,
            bytes: &[],
        };
        let ours = ours::encode(before.clone(), &ours, 0, Some(&KEY), 0);
        assert_eq!((ours.number, ours.out), (14, before));
    }
}

#[test]
fn rows_18_and_28_packets_that_the_rust_has_no_words_for() {
    let before = vec![0xAA; 400];
    for (kind, bytes, refusal) in [(2, &[0; 299][..], 9), (7, &[], 2)] {
        let packet = Packet {
            kind,
            a: 0,
            b: 0,
            bytes,
        };
        let ours = ours::encode(before.clone(), &packet, 0, Some(&KEY), 0);
        assert_eq!((ours.number, ours.out), (refusal, before.clone()));
    }
}

#[test]
fn row_19_an_answer_to_another_buffer_or_to_none() {
    let datagram = sealed(5, 1, 1, &[7]);
    let (mut window, mut desk, mut told) = (rust::new_window(), [0; 16], [0; 66]);
    calls::answer_open(&datagram, true, &mut window, true, &mut desk);
    assert_eq!(desk[..2], [0, 17]);
    calls::decode(
        &datagram,
        0,
        Some(&KEY),
        true,
        &mut window,
        &mut desk,
        &mut told,
    );
    let kept = desk;
    calls::answer_open(&datagram[1..], true, &mut window, true, &mut desk);
    assert_eq!(desk[..2], [0, 18]);
    assert_eq!(desk[12..], kept[12..]);
    assert_eq!(window, rust::new_window());
}
