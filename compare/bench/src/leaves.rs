//! Single parts with the cipher that does nothing: the Rust's as a program calls them, ours through the libraries
//! of the comparison, as a host calls them: where there is cipher work, the call, the cipher on the part that the
//! ask names, and the answer.

mod packets;
mod tables;
mod windows;

use crate::rounds::Row;

pub fn rows() -> Vec<Row> {
    let mut rows = vec![
        packets::encode_keep_alive(),
        packets::encode_payload(100),
        packets::encode_payload(1200),
        packets::decode_payload(100),
        packets::decode_payload(1200),
    ];
    rows.extend(windows::rows());
    rows.extend([tables::by_address(), tables::by_id(), tables::find_or_add()]);
    rows
}
