use std::io::{self, Cursor};

pub fn sequence_bytes_required(sequence: u64) -> usize {
    super::sequence_bytes_required(sequence)
}

pub fn encode_prefix(kind: u8, sequence: u64) -> u8 {
    super::encode_prefix(kind, sequence)
}

pub fn decode_prefix(prefix: u8) -> (u8, usize) {
    super::decode_prefix(prefix)
}

pub fn write_sequence(out: &mut [u8], sequence: u64) -> io::Result<usize> {
    super::write_sequence(&mut Cursor::new(out), sequence)
}

pub fn read_sequence(source: &[u8], len: usize) -> io::Result<u64> {
    super::read_sequence(&mut Cursor::new(source), len)
}

pub fn get_additional_data(prefix: u8, protocol: u64) -> [u8; 22] {
    super::get_additional_data(prefix, protocol)
}
