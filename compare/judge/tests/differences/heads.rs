//! Prefix and sequence bytes.

use oracle::calls::{self as rust, Fault};
use ours::calls;

use crate::common::{is, panicked};

#[test]
fn row_1_nine_sequence_bytes() {
    for source in [&[][..], &[0; 17]] {
        assert!(panicked(rust::read_sequence(source, 9)));
        assert_eq!(calls::read_sequence(source, 0, 9), [4, 0]);
    }
}

#[test]
fn row_2_a_source_that_ends_too_soon() {
    assert_eq!(is(rust::read_sequence(&[0xE8], 2)), Err(Fault::IoError));
    assert_eq!(calls::read_sequence(&[0xE8], 0, 2), [7, 0]);
}

#[test]
fn row_3_half_a_sequence() {
    let mut out = [0; 1];
    assert_eq!(is(rust::write_sequence(&mut out, 1000)), Ok(1));
    assert_eq!(out, [0xE8]);
    // Ours writes into eight bytes here; `encode` refuses a buffer that is short: row 17.
    let mut out = [0; 8];
    assert_eq!(calls::write_sequence(&mut out, 1000), 2);
    assert_eq!(out[..2], [0xE8, 3]);
}

#[test]
fn row_4_a_type_over_15() {
    assert_eq!(rust::encode_prefix(0x10, 0), 0x10);
    assert_eq!(calls::encode_prefix(0x10, 0), 0);
}
