use super::*;
use crate::case::{Decode, Encode, Fields};
use crate::check::check;
use crate::make::{Parts, FRESH};

fn line(case: &Case) -> String {
    lines::line(case).expect("in the domain")
}

#[test]
fn numbers_and_bytes() {
    let (value, sequence) = (5, 256);
    let prefix = Case::Prefix { value, sequence };
    assert_eq!(line(&prefix), "prefix 5 100 = 25 2 0001");
    let source = vec![1, 0xE8, 3];
    let short = Case::Sequence {
        source,
        at: 1,
        len: 3,
    };
    assert_eq!(line(&short), "sequence e803 3 = 7 0");
    assert_eq!(line(&Case::Unprefix { byte: 4 }), "unprefix 4 = 4 0");
}

#[test]
fn a_window_after_an_advance() {
    let window = Box::new(FRESH);
    let case = Case::Window {
        window,
        sequence: 257,
    };
    let text = "window 0000000000000000 101 = 0 0000000000000101010000000000000101";
    assert_eq!(line(&case), text);
}

#[test]
fn a_refused_seal_shows_the_part_as_it_stood() {
    let case = Case::Encode(Encode {
        packet: Fields {
            kind: 4,
            a: 3,
            b: 8,
            bytes: Vec::new(),
        },
        protocol: 7,
        key: Some([1; 32]),
        sequence: 0,
        out: vec![0xEE; 26],
        refused: true,
    });
    let key = "01".repeat(32);
    let tag = "ee".repeat(16);
    let text = "0300000008000000";
    let nonce = "00".repeat(12);
    let additional = "4e4554434f444520312e303200070000000000000004";
    let out = "ee".repeat(26);
    let expected = format!(
        "encode 4 3 8 - 7 {key} 0 {out} {text}{tag} 0 = 18 0 {nonce} {additional} {text} 04{text}{tag}ee"
    );
    assert_eq!(line(&case), expected);
}

#[test]
fn a_datagram_of_a_wrong_key() {
    let datagram = Parts::new(6, 1, Vec::new()).seal(7, &[1; 32]);
    let case = Case::Decode(Decode {
        datagram: datagram.clone(),
        protocol: 7,
        key: Some([2; 32]),
        window: None,
    });
    let text = line(&case);
    assert!(text.starts_with(&format!("decode {} 7 ", crate::text::hex(&datagram))));
    assert!(text.contains(" - 0 - = 8 000000000100000000000000 "));
    assert!(text.ends_with(" 2 0 0 0 0 - -"));
}

#[test]
fn enough_of_a_sort_is_enough() {
    let mut sample = Sample::default();
    for sequence in [300, 301, 70_000, 301] {
        let case = Case::Prefix { value: 4, sequence };
        sample.offer(&case, &check(&case));
    }
    assert_eq!(
        sample.lines,
        ["prefix 4 12c = 24 2 2c01", "prefix 4 11170 = 34 3 701101"]
    );
}
