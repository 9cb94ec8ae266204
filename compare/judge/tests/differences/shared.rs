//! Where ours does as the Rust does, and both not as the standard.

use oracle::calls as rust;
use ours::{calls, Packet};

use crate::common::{fields, is, mine, sealed, theirs, Came, KEY};

/// The same on both sides, window and all.
fn both(datagram: &[u8], window: Option<&rust::Window>) -> (Came, Option<rust::Window>) {
    let came = theirs(datagram, window);
    assert_eq!(mine(datagram, window), came);
    came
}

#[test]
fn rows_5_and_6_sequence_0_has_no_bytes() {
    assert_eq!(rust::encode_prefix(4, 0), 4);
    assert_eq!(calls::encode_prefix(4, 0), 4);
    let read = Came::Read(0, fields(4, 3, 8, &[]));
    assert_eq!(
        both(&sealed(4, 0, 0, &[3, 0, 0, 0, 8, 0, 0, 0]), None).0,
        read
    );
}

#[test]
fn row_20_a_longer_body() {
    let read = Came::Read(1, fields(4, 3, 8, &[]));
    assert_eq!(
        both(&sealed(4, 1, 1, &[3, 0, 0, 0, 8, 0, 0, 0, 9]), None).0,
        read
    );
}

#[test]
fn row_21_payloads_of_any_length() {
    for len in [0, 1201, 1400] {
        let bytes = vec![7; len];
        let read = Came::Read(1, fields(5, 0, 0, &bytes));
        assert_eq!(both(&sealed(5, 1, 1, &bytes), None).0, read);
        let encoded = is(rust::encode(
            vec![0; len + 18],
            &fields(5, 0, 0, &bytes),
            0,
            Some(&KEY),
            1,
        ));
        assert_eq!(encoded.result, Ok(len + 18));
        let packet = Packet {
            kind: 5,
            a: 0,
            b: 0,
            bytes: &bytes,
        };
        let ours = ours::encode(vec![0; len + 18], &packet, 0, Some(&KEY), 1);
        assert_eq!(ours.out, encoded.out);
    }
}

#[test]
fn row_22_requests_that_are_long_or_claim_a_sequence() {
    let read = Came::Read(0, fields(0, 0, 0, &[0; 1061]));
    for (prefix, len) in [(0, 1079), (0xF0, 1078), (0xF0, 1500)] {
        let mut datagram = vec![0; len];
        datagram[0] = prefix;
        assert_eq!(both(&datagram, None).0, read);
    }
}

#[test]
fn row_23_the_window_before_the_length() {
    let window = is(rust::advance(&rust::new_window(), 0));
    let mut datagram = [0; 18];
    datagram[0] = 0x25;
    assert_eq!(
        both(&datagram, Some(&window)),
        (Came::Refused(6), Some(window))
    );
}

#[test]
fn row_24_seventeen_bytes() {
    for kind in [1, 5, 6] {
        let encoded = is(rust::encode(
            vec![0; 17],
            &fields(kind, 0, 0, &[]),
            0,
            Some(&KEY),
            0,
        ));
        assert_eq!(encoded.result, Ok(17));
        let packet = Packet {
            kind,
            a: 0,
            b: 0,
            bytes: &[],
        };
        let ours = ours::encode(vec![0; 17], &packet, 0, Some(&KEY), 0);
        assert_eq!((ours.length, &ours.out), (17, &encoded.out));
        assert_eq!(both(&encoded.out, None).0, Came::Refused(1));
    }
}

#[test]
fn row_25_short_and_the_window_has_moved() {
    let fresh = rust::new_window();
    let (came, window) = both(&sealed(4, 1, 9, &[0; 7]), Some(&fresh));
    assert_eq!(came, Came::Refused(9));
    let window = window.expect("it was given");
    assert_eq!(window, is(rust::advance(&fresh, 9)));
    let whole = sealed(4, 1, 9, &[0; 8]);
    assert_eq!(both(&whole, Some(&window)).0, Came::Refused(6));
}
