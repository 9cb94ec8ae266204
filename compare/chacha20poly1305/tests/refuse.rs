//! `watch::refuse_at`: one ask fails, the others are as ever.
#![cfg(not(feature = "idle"))]

use chacha20poly1305::{watch, AeadInPlace, ChaCha20Poly1305, Key, KeyInit, Nonce};

#[test]
fn only_that_ask_fails() {
    let cipher = ChaCha20Poly1305::new(Key::from_slice(&[7; 32]));
    let nonce = Nonce::from([0; 12]);
    let mut text = *b"dose";
    watch::refuse_at(Some(1));
    watch::start();
    let tag = cipher.encrypt_in_place_detached(&nonce, b"", &mut text);
    let tag = tag.expect("ask 0 is granted");
    let sealed = text;
    let opened = cipher.decrypt_in_place_detached(&nonce, b"", &mut text, &tag);
    assert!(
        opened.is_err() && text == sealed,
        "ask 1 is refused, and its buffer stays"
    );
    let opened = cipher.decrypt_in_place_detached(&nonce, b"", &mut text, &tag);
    assert!(opened.is_ok() && &text == b"dose", "ask 2 is granted");
    let granted: Vec<bool> = watch::take().iter().map(|asked| asked.granted).collect();
    watch::refuse_at(None);
    assert_eq!(granted, [true, false, true]);
}
