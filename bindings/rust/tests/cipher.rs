//! libsodium behind the trait: published vectors and wrong tags.

use netcode::{Cipher, Nonce, Part, Sodium, Terms};

const TEXT: &[u8] =
    b"Ladies and Gentlemen of the class of '99: If I could offer you only one tip for the future, \
sunscreen would be it.";
const ADDITIONAL: [u8; 12] = [
    0x50, 0x51, 0x52, 0x53, 0xC0, 0xC1, 0xC2, 0xC3, 0xC4, 0xC5, 0xC6, 0xC7,
];

/// 0x80, 0x81 and so on.
fn key() -> [u8; 32] {
    std::array::from_fn(|i| 0x80 + i as u8)
}

/// Seals the vector's text, looks at the tag and the first bytes, then opens it again, wrong tags first.
fn vector(nonce: Nonce<'_>, first: [u8; 4], tag: [u8; 16]) {
    let key = key();
    let terms = Terms {
        key: &key,
        nonce,
        additional: &ADDITIONAL,
    };
    let (mut text, mut made) = (TEXT.to_vec(), [0; 16]);
    assert!(Sodium::new().seal(&terms, part(&mut text, &mut made)));
    assert_eq!((&text[..4], made), (&first[..], tag));
    let sealed = text.clone();
    for bit in 0..128 {
        let mut wrong = tag;
        wrong[bit / 8] ^= 1 << (bit % 8);
        assert!(!Sodium::new().open(&terms, part(&mut text, &mut wrong)));
        assert_eq!(text, sealed);
    }
    assert!(Sodium::new().open(&terms, part(&mut text, &mut made)));
    assert_eq!(text, TEXT);
}

fn part<'b>(text: &'b mut [u8], tag: &'b mut [u8; 16]) -> Part<'b> {
    Part { text, tag }
}

/// RFC 8439, 2.8.2.
#[test]
fn chacha20_poly1305() {
    let nonce = [7, 0, 0, 0, 0x40, 0x41, 0x42, 0x43, 0x44, 0x45, 0x46, 0x47];
    let tag = 0x1AE10B594F09E26A7E902ECBD0600691_u128.to_be_bytes();
    vector(Nonce::Packet(&nonce), [0xD3, 0x1A, 0x8D, 0x34], tag);
}

/// draft-irtf-cfrg-xchacha, A.3.1.
#[test]
fn xchacha20_poly1305() {
    let nonce: [u8; 24] = std::array::from_fn(|i| 0x40 + i as u8);
    let tag = 0xC0875924C1C7987947DEAFD8780ACF49_u128.to_be_bytes();
    vector(Nonce::Token(&nonce), [0xBD, 0x6D, 0x17, 0x9D], tag);
}

#[test]
fn random_bytes_differ() {
    let drawn: [[u8; 32]; 2] = [
        netcode::generate_random_bytes(),
        netcode::generate_random_bytes(),
    ];
    assert_ne!(drawn[0], drawn[1]);
    assert!(drawn.iter().all(|bytes| bytes[16..] != [0; 16]));
}
