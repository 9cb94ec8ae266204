//! Bytes and windows as text: lower-case hex, `-` for none.

use std::fmt::Write;

use crate::case::{Window, EMPTY};

pub fn hex(bytes: &[u8]) -> String {
    const DIGITS: &[u8; 16] = b"0123456789abcdef";
    if bytes.is_empty() {
        return "-".into();
    }
    let mut text = String::with_capacity(2 * bytes.len());
    for byte in bytes {
        text.push(DIGITS[usize::from(byte >> 4)] as char);
        text.push(DIGITS[usize::from(byte & 15)] as char);
    }
    text
}

/// The highest in 16 digits, then for each place that is not empty two digits of place and 16 of value.
pub fn window_text(window: Option<&Window>) -> String {
    let Some(window) = window else {
        return "-".into();
    };
    let mut text = format!("{:016x}", window[0]);
    for (place, value) in window[1..].iter().enumerate() {
        if *value != EMPTY {
            write!(text, "{place:02x}{value:016x}").expect("a string takes all");
        }
    }
    text
}

#[cfg(test)]
mod tests {
    use super::*;

    #[test]
    fn none_is_a_dash() {
        assert_eq!(hex(&[]), "-");
        assert_eq!(hex(&[0, 0xA5]), "00a5");
        assert_eq!(window_text(None), "-");
    }

    #[test]
    fn a_window_shows_its_used_places() {
        let mut window = [EMPTY; 257];
        window[0] = 0x100;
        assert_eq!(window_text(Some(&window)), "0000000000000100");
        window[1] = 0x100;
        window[256] = 255;
        let text = "0000000000000100000000000000000100ff00000000000000ff";
        assert_eq!(window_text(Some(&window)), text);
    }
}
