#![cfg(not(feature = "idle"))]

use chacha20poly1305::aead::{rand_core::RngCore, OsRng};
use chacha20poly1305::{
    seed, watch, AeadInPlace, ChaCha20Poly1305, Error, Key, KeyInit, Nonce, Tag, XChaCha20Poly1305,
    XNonce,
};

const TEXT: &[u8] = b"Ladies and Gentlemen of the class of '99: \
If I could offer you only one tip for the future, sunscreen would be it.";

const ADDITIONAL: &str = "50515253c0c1c2c3c4c5c6c7";

// RFC 8439, section 2.8.2.
const NONCE: &str = "070000004041424344454647";
const TAG: &str = "1ae10b594f09e26a7e902ecbd0600691";
const SEALED: &str = "d31a8d34648e60db7b86afbc53ef7ec2a4aded51296e08fea9e2b5a736ee62d6\
3dbea45e8ca9671282fafb69da92728b1a71de0a9e060b2905d6a5b67ecd3b36\
92ddbd7f2d778b8c9803aee328091b58fab324e4fad675945585808b4831d7bc\
3ff4def08e4b7a9de576d26586cec64b6116";

// draft-irtf-cfrg-xchacha-03, appendix A.3.1.
const X_NONCE: &str = "404142434445464748494a4b4c4d4e4f5051525354555657";
const X_TAG: &str = "c0875924c1c7987947deafd8780acf49";
const X_SEALED: &str = "bd6d179d3e83d43b9576579493c0e939572a1700252bfaccbed2902c21396cbb\
731c7f1b0b4aa6440bf3a82f4eda7e39ae64c6708c54c216cb96b72e1213b452\
2f8c9ba40db5d945b11b69b982c1bb9e3f3fac2bc369488f76b2383565d3fff9\
21f9664c97637da9768812f615c68b13b52e";

fn hex(digits: &str) -> Vec<u8> {
    (0..digits.len())
        .step_by(2)
        .map(|at| u8::from_str_radix(&digits[at..at + 2], 16).unwrap())
        .collect()
}

fn key() -> Vec<u8> {
    (0x80..=0x9f).collect()
}

fn cipher() -> ChaCha20Poly1305 {
    ChaCha20Poly1305::new(Key::from_slice(&key()))
}

#[test]
fn rfc_8439_both_ways() {
    let (nonce, additional) = (hex(NONCE), hex(ADDITIONAL));
    let nonce = Nonce::from_slice(&nonce);
    let mut buffer = TEXT.to_vec();

    let tag = cipher()
        .encrypt_in_place_detached(nonce, &additional, &mut buffer)
        .unwrap();
    assert_eq!(tag.to_vec(), hex(TAG));
    assert_eq!(buffer, hex(SEALED));

    assert_eq!(
        cipher().decrypt_in_place_detached(nonce, &additional, &mut buffer, &tag),
        Ok(())
    );
    assert_eq!(buffer, TEXT);
}

#[test]
fn xchacha_draft_both_ways() {
    let (nonce, additional) = (hex(X_NONCE), hex(ADDITIONAL));
    let nonce = XNonce::from_slice(&nonce);
    let cipher = XChaCha20Poly1305::new(Key::from_slice(&key()));
    let mut buffer = TEXT.to_vec();

    let tag = cipher
        .encrypt_in_place_detached(nonce, &additional, &mut buffer)
        .unwrap();
    assert_eq!(tag.to_vec(), hex(X_TAG));
    assert_eq!(buffer, hex(X_SEALED));

    let wrong = Tag::from([0; 16]);
    assert_eq!(
        cipher.decrypt_in_place_detached(nonce, &additional, &mut buffer, &wrong),
        Err(Error)
    );
    assert_eq!(buffer, hex(X_SEALED));
    assert_eq!(
        cipher.decrypt_in_place_detached(nonce, &additional, &mut buffer, &tag),
        Ok(())
    );
    assert_eq!(buffer, TEXT);
}

fn refused(nonce: &[u8], additional: &[u8], tag: &[u8]) {
    let mut buffer = hex(SEALED);
    let answer = cipher().decrypt_in_place_detached(
        Nonce::from_slice(nonce),
        additional,
        &mut buffer,
        Tag::from_slice(tag),
    );
    assert_eq!(answer, Err(Error));
    assert_eq!(buffer, hex(SEALED));
}

#[test]
fn a_wrong_tag_additional_or_nonce_leaves_the_buffer() {
    let flipped = |digits: &str, at: usize| {
        let mut bytes = hex(digits);
        bytes[at] ^= 1;
        bytes
    };
    for at in 0..16 {
        refused(&hex(NONCE), &hex(ADDITIONAL), &flipped(TAG, at));
    }
    for at in 0..12 {
        refused(&hex(NONCE), &flipped(ADDITIONAL, at), &hex(TAG));
        refused(&flipped(NONCE, at), &hex(ADDITIONAL), &hex(TAG));
    }
}

#[test]
fn an_empty_text_has_a_tag() {
    let nonce = Nonce::from([0; 12]);
    let tag = cipher()
        .encrypt_in_place_detached(&nonce, b"", &mut [])
        .unwrap();
    assert_eq!(
        cipher().decrypt_in_place_detached(&nonce, b"", &mut [], &tag),
        Ok(())
    );
    assert_eq!(
        cipher().decrypt_in_place_detached(&nonce, b"x", &mut [], &tag),
        Err(Error)
    );
}

#[test]
fn seals_can_be_refused() {
    let nonce = Nonce::from([0; 12]);
    let mut buffer = TEXT.to_vec();
    watch::start();
    watch::refuse_seals(true);
    assert_eq!(
        cipher().encrypt_in_place_detached(&nonce, b"", &mut buffer),
        Err(Error)
    );
    watch::refuse_seals(false);
    assert_eq!(buffer, TEXT);
    assert!(cipher()
        .encrypt_in_place_detached(&nonce, b"", &mut buffer)
        .is_ok());
    let granted: Vec<bool> = watch::take().iter().map(|asked| asked.granted).collect();
    assert_eq!(granted, [false, true]);
}

#[test]
fn the_watch_records_every_ask() {
    let nonce = Nonce::from([5; 12]);
    let mut buffer = TEXT.to_vec();
    let place = buffer[2..].as_ptr() as usize;
    let text = &mut buffer[2..];

    watch::start();
    let sealing = cipher().encrypt_in_place_detached(&nonce, b"more", text);
    let sealed = text.to_vec();
    let opening = cipher().decrypt_in_place_detached(&nonce, b"more", text, &Tag::from([7; 16]));
    let asked = watch::take();
    assert!(sealing.is_ok() && opening.is_err());

    let seal = watch::Asked {
        seal: true,
        key: key().try_into().unwrap(),
        nonce: vec![5; 12],
        additional: b"more".to_vec(),
        text: TEXT[2..].to_vec(),
        tag: None,
        place,
        granted: true,
    };
    let open = watch::Asked {
        seal: false,
        text: sealed,
        tag: Some([7; 16]),
        granted: false,
        ..seal.clone()
    };
    assert_eq!(asked, [seal, open]);
}

#[test]
fn the_watch_is_off_until_started_and_after_taken() {
    let seal = || {
        cipher()
            .encrypt_in_place_detached(&Nonce::from([0; 12]), b"", &mut [0])
            .unwrap()
    };
    seal();
    assert_eq!(watch::take(), []);
    watch::start();
    seal();
    assert_eq!(watch::take().len(), 1);
    seal();
    assert_eq!(watch::take(), []);
    watch::start();
    seal();
    watch::start();
    assert_eq!(watch::take(), []);
}

#[test]
fn the_generator_repeats_from_its_seed() {
    let draw = |start| {
        let mut bytes = [0; 13];
        seed(start);
        OsRng.fill_bytes(&mut bytes);
        bytes
    };
    assert_eq!(draw(5), draw(5));
    assert_ne!(draw(5), draw(6));
    // The first number splitmix64 gives for the seed 0 is e220a8397b1dcdaf.
    assert_eq!(draw(0)[..8], 0xe220_a839_7b1d_cdaf_u64.to_le_bytes());
}
