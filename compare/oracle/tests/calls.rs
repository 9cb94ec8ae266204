#![cfg(not(feature = "idle"))]

use chacha20poly1305::watch;
use oracle::calls::*;

const KEY: [u8; 32] = [3; 32];
const PROTOCOL: u64 = 0x1122_3344_5566_7788;

fn is<T>(answer: Answer<T>) -> T {
    match answer {
        Answer::Is(value) => value,
        Answer::Panicked { .. } => panic!("the call panicked"),
    }
}

fn keep_alive() -> Fields {
    Fields {
        kind: 4,
        a: 7,
        b: 64,
        bytes: Vec::new(),
    }
}

fn sealed(packet: &Fields, sequence: u64) -> Vec<u8> {
    let mut encoded = is(encode(
        vec![0; 1400],
        packet,
        PROTOCOL,
        Some(&KEY),
        sequence,
    ));
    encoded.out.truncate(encoded.result.unwrap());
    encoded.out
}

#[test]
fn a_keep_alive_comes_back() {
    let encoded = is(encode(
        vec![0; 1400],
        &keep_alive(),
        PROTOCOL,
        Some(&KEY),
        0x0203,
    ));
    assert_eq!(encoded.result, Ok(1 + 2 + 8 + 16));
    assert_eq!(encoded.out[..3], [0x24, 3, 2]);
    let [asked] = &encoded.asked[..] else {
        panic!("one seal")
    };
    assert_eq!(asked.place - encoded.out.as_ptr() as usize, 3);
    assert_eq!(asked.additional, additional_data(0x24, PROTOCOL));
    assert_eq!(asked.nonce, [0, 0, 0, 0, 3, 2, 0, 0, 0, 0, 0, 0]);
    assert_eq!(asked.text, [7, 0, 0, 0, 64, 0, 0, 0]);

    let window = new_window();
    let decoded = is(decode(
        encoded.out[..27].to_vec(),
        PROTOCOL,
        Some(&KEY),
        Some(&window),
    ));
    assert_eq!(decoded.result, Ok((0x0203, keep_alive())));
    assert_eq!(decoded.asked.len(), 1);
    assert!(decoded.asked[0].granted && !decoded.asked[0].seal);
    assert_eq!(decoded.window, Some(is(advance(&window, 0x0203))));
    assert_eq!(decoded.datagram[3..11], [7, 0, 0, 0, 64, 0, 0, 0]);
}

#[test]
fn every_kind_comes_back() {
    let filled = |kind, a, b, len: usize| Fields {
        kind,
        a,
        b,
        bytes: (0..len).map(|at| at as u8).collect(),
    };
    let packets = [
        filled(0, 1, 2, 13 + 24 + 1024),
        filled(1, 0, 0, 0),
        filled(2, 9, 0, 300),
        filled(3, u64::MAX, 0, 300),
        filled(4, u32::MAX.into(), 5, 0),
        filled(5, 0, 0, 1300),
        filled(6, 0, 0, 0),
    ];
    for packet in packets {
        let sequence = if packet.kind == 0 { 0 } else { 300 };
        let decoded = is(decode(
            sealed(&packet, sequence),
            PROTOCOL,
            Some(&KEY),
            Some(&new_window()),
        ));
        assert_eq!(decoded.result, Ok((sequence, packet)));
    }
}

#[test]
fn a_duplicate_is_refused() {
    let datagram = sealed(&keep_alive(), 12);
    let first = is(decode(
        datagram.clone(),
        PROTOCOL,
        Some(&KEY),
        Some(&new_window()),
    ));
    let window = first.window.unwrap();
    assert_eq!(already_received(&window, 12), Answer::Is(true));
    assert_eq!(already_received(&window, 13), Answer::Is(false));

    let second = is(decode(
        datagram.clone(),
        PROTOCOL,
        Some(&KEY),
        Some(&window),
    ));
    let refused = Decoded {
        result: Err(Fault::DuplicatedSequence),
        asked: Vec::new(),
        window: Some(window),
        datagram,
    };
    assert_eq!(second, refused);
}

#[test]
fn a_wrong_tag_leaves_datagram_and_window() {
    let mut datagram = sealed(&keep_alive(), 12);
    *datagram.last_mut().unwrap() ^= 1;
    let decoded = is(decode(
        datagram.clone(),
        PROTOCOL,
        Some(&KEY),
        Some(&new_window()),
    ));
    assert_eq!(decoded.result, Err(Fault::CryptoError));
    assert_eq!(decoded.datagram, datagram);
    assert_eq!(decoded.window, Some(new_window()));
    assert_eq!(decoded.asked.len(), 1);
    assert!(!decoded.asked[0].granted);
}

#[test]
fn a_sequence_of_nine_bytes_panics_with_a_key_only() {
    let mut datagram = vec![0; 18];
    datagram[0] = 0x91;
    let window = new_window();
    let panicked = decode(datagram.clone(), PROTOCOL, Some(&KEY), Some(&window));
    assert_eq!(
        panicked,
        Answer::Panicked {
            buffer: datagram.clone(),
            window: Some(window)
        }
    );
    assert_eq!(
        is(decode(datagram, PROTOCOL, None, None)).result,
        Err(Fault::UnavailablePrivateKey)
    );
}

#[test]
fn a_panic_leaves_the_watch_off_and_empty() {
    let mut datagram = vec![0; 18];
    datagram[0] = 0x81;
    assert!(matches!(
        decode(datagram, PROTOCOL, Some(&KEY), None),
        Answer::Panicked { .. }
    ));
    oracle::raw::Packet::Disconnect
        .encode(&mut [0; 40], PROTOCOL, Some((1, &KEY)))
        .unwrap();
    assert_eq!(watch::take(), []);
}

#[test]
fn a_short_buffer_is_an_io_error() {
    for len in 0..26 {
        let encoded = is(encode(
            vec![0xEE; len],
            &keep_alive(),
            PROTOCOL,
            Some(&KEY),
            5,
        ));
        assert_eq!(encoded.result, Err(Fault::IoError), "{len} bytes");
        assert_eq!(encoded.asked, []);
        assert_eq!(encoded.out.len(), len);
    }
    assert_eq!(
        is(encode(
            vec![0xEE; 26],
            &keep_alive(),
            PROTOCOL,
            Some(&KEY),
            5
        ))
        .result,
        Ok(26)
    );
    assert_eq!(
        is(encode(Vec::new(), &keep_alive(), PROTOCOL, None, 5)).result,
        Err(Fault::UnavailablePrivateKey)
    );
}

#[test]
fn a_refused_seal_is_a_crypto_error() {
    watch::refuse_seals(true);
    let encoded = is(encode(
        vec![0; 1400],
        &keep_alive(),
        PROTOCOL,
        Some(&KEY),
        1,
    ));
    let (challenge, _) = is(generate_challenge(1, &[2; 256], 3, &KEY));
    watch::refuse_seals(false);
    assert_eq!(encoded.result, Err(Fault::CryptoError));
    assert_eq!(encoded.out[..10], [0x14, 1, 7, 0, 0, 0, 64, 0, 0, 0]);
    assert_eq!(challenge, Err(Fault::CryptoError));
}

#[test]
fn a_challenge_comes_back() {
    let (token, asked) = is(generate_challenge(77, &[9; 256], 5, &KEY));
    let token = token.unwrap();
    assert_eq!(asked.len(), 1);
    assert_eq!(asked[0].text.len(), 284);
    assert_eq!(is(decode_challenge(&token, 5, &KEY)).0, Ok((77, [9; 256])));
    assert_eq!(
        is(decode_challenge(&token, 6, &KEY)).0,
        Err(Fault::CryptoError)
    );
}

#[test]
fn the_private_functions_are_reached() {
    assert_eq!(
        [0, 1, 255, 256, u64::MAX].map(sequence_bytes_required),
        [0, 1, 1, 2, 8]
    );
    assert_eq!(encode_prefix(5, 0x0100), 0x25);
    assert_eq!(decode_prefix(0x25), (5, 2));
    let mut out = [0; 3];
    assert_eq!(is(write_sequence(&mut out, 0x0201)), Ok(2));
    assert_eq!(out, [1, 2, 0]);
    assert_eq!(is(read_sequence(&[1, 2], 2)), Ok(0x0201));
    assert_eq!(is(read_sequence(&[1], 2)), Err(Fault::IoError));
    assert!(matches!(read_sequence(&[0; 9], 9), Answer::Panicked { .. }));
    assert_eq!(
        additional_data(0x25, 1)[13..],
        [1, 0, 0, 0, 0, 0, 0, 0, 0x25]
    );
    assert_eq!(
        token_additional_data(1, 2)[13..],
        [1, 0, 0, 0, 0, 0, 0, 0, 2, 0, 0, 0, 0, 0, 0, 0]
    );
}

/// The sum wraps to 255 in a release build, which the window then takes for too old.
#[test]
fn the_last_sequence_overflows_the_window() {
    let mut window = new_window();
    window[0] = 255;
    match already_received(&window, u64::MAX) {
        Answer::Is(received) => assert!(received && !overflow_is_checked()),
        Answer::Panicked { .. } => assert!(overflow_is_checked()),
    }
}

fn overflow_is_checked() -> bool {
    std::panic::catch_unwind(|| std::hint::black_box(u8::MAX) + 1).is_err()
}
