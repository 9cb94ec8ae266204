//! Our libraries behind safe functions. `calls`, `tables`, `servers` and `datagrams` have each call as it is;
//! `packets`, `tokens` and `whole` play the host as well: where a call ends in an ask, they do the cipher's
//! work and hand the answer back.

pub mod calls;
pub mod datagrams;
mod host;
mod packets;
mod private;
pub mod servers;
pub mod sys;
pub mod tables;
mod tokens;
pub mod whole;

pub use host::Ask;
pub use packets::{decode, encode, Decoded, Encoded, Read};
pub use tokens::{decode_challenge, generate_challenge, Proved};

/// The highest sequence first, then the 256 places.
pub type Window = [u64; 257];

/// Sixteen words in which a call answers:
///
/// | words    | meaning                                                                        |
/// |----------|--------------------------------------------------------------------------------|
/// | 0        | refused 0, asked 1, done 2                                                     |
/// | 1        | the refusal's number, or the packet's length                                   |
/// | 2 to 7   | of a packet that was read: sequence, type, two numbers, body's start and end   |
/// | 8 to 11  | of an ask: open 0 or seal 1, size of the additional data, part's start and end |
/// | 12 to 15 | what is kept open, 12 being 0 for nothing                                      |
pub type Desk = [u64; 16];

/// What an ask tells the cipher: key 32, nonce 12, additional data 22.
pub type Told = [u8; 66];

pub const REFUSED: u64 = 0;
pub const ASKED: u64 = 1;
pub const DONE: u64 = 2;

/// A packet to encode; its numbers and bytes are those of `oracle::calls::Fields`.
#[derive(Debug, Clone, Copy)]
pub struct Packet<'a> {
    pub kind: u8,
    pub a: u64,
    pub b: u64,
    pub bytes: &'a [u8],
}

/// Stands on the desk and in `Told` before a call, so that what a call does not write shows.
pub const UNWRITTEN: Desk = [0xA5A5_A5A5_A5A5_A5A5; 16];
pub const UNTOLD: Told = [0xA5; 66];
