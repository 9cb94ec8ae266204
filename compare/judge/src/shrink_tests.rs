use super::*;
use crate::case::Fields;
use crate::make::{advance, pattern};

fn payload(sequence: u64, bytes: Vec<u8>) -> Encode {
    Encode {
        packet: Fields {
            kind: 5,
            a: 0,
            b: 0,
            bytes,
        },
        protocol: 77,
        key: Some([9; 32]),
        sequence,
        out: pattern(100, 3),
        refused: false,
    }
}

#[test]
fn the_smallest_of_a_made_up_difference() {
    let case = Case::Encode(payload(1_000_000, pattern(60, 7)));
    let smallest = shrink(case, |case| match case {
        Case::Encode(case) => {
            case.sequence > 300 && case.packet.bytes.len() >= 3 && case.out.len() >= 10
        }
        _ => false,
    });
    let Case::Encode(smallest) = smallest else {
        panic!("another call")
    };
    let mut expected = payload(301, vec![0; 3]);
    expected.out = vec![0; 10];
    expected.key = Some([0; 32]);
    expected.protocol = 0;
    assert_eq!(smallest, expected);
}

#[test]
fn a_window_loses_its_places() {
    let mut window = FRESH;
    for sequence in 900..1100 {
        advance(&mut window, sequence);
    }
    let case = Case::Window {
        window: Box::new(window),
        sequence: 1000,
    };
    let place = 1 + 1000 % 256;
    let smallest = shrink(case, |case| match case {
        Case::Window { window, .. } => window[place] != EMPTY,
        _ => false,
    });
    let mut expected = FRESH;
    expected[place] = 0;
    let window = Box::new(expected);
    assert_eq!(
        smallest,
        Case::Window {
            window,
            sequence: 0
        }
    );
}

#[test]
fn a_good_tag_stays_good() {
    let key = [5; 32];
    let case = Case::Decode(Decode {
        datagram: Parts::new(5, 70_000, pattern(50, 1)).seal(8, &key),
        protocol: 8,
        key: Some(key),
        window: Some(Box::new(FRESH)),
    });
    let smallest = shrink(case, |case| match case {
        Case::Decode(case) => case
            .key
            .and_then(|key| Parts::open(&case.datagram, case.protocol, &key))
            .is_some_and(|parts| parts.body.len() >= 2),
        _ => false,
    });
    let expected = Case::Decode(Decode {
        datagram: Parts::new(5, 0, vec![0; 2]).seal(0, &[0; 32]),
        protocol: 0,
        key: Some([0; 32]),
        window: None,
    });
    assert_eq!(smallest, expected);
}

#[test]
fn window_and_sequence_go_down_together() {
    let mut window = FRESH;
    advance(&mut window, 700_001);
    advance(&mut window, 700_000);
    let case = Case::Window {
        window: Box::new(window),
        sequence: 700_000,
    };
    let smallest = shrink(case, |case| match case {
        Case::Window { window, sequence } => {
            window[1 + (sequence % 256) as usize] == *sequence && *sequence > 0
        }
        _ => false,
    });
    let place = 700_000 % 256;
    let mut expected = FRESH;
    expected[1 + place as usize] = place;
    let window = Box::new(expected);
    assert_eq!(
        smallest,
        Case::Window {
            window,
            sequence: place
        }
    );
}
