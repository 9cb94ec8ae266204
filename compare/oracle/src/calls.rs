//! A plain interface to the original, so that a harness can put the same questions to another
//! implementation and compare the answers.

use std::io;
use std::panic::{catch_unwind, set_hook, AssertUnwindSafe};

use chacha20poly1305::watch;

pub use crate::fields::Fields;
pub use chacha20poly1305::watch::Asked;

use crate::packet::{self, ChallengeToken, Packet};
use crate::replay_protection::{peek, ReplayProtection};
use crate::{token, NetcodeError};

/// The most recent sequence first, then the received ones.
pub type Window = [u64; 257];

/// A panic is an answer here, and so rare that the window it carries needs no box.
#[allow(clippy::large_enum_variant)]
#[derive(Debug, Clone, PartialEq, Eq)]
pub enum Answer<T> {
    Is(T),
    /// What the panic left behind, for `encode` and `decode`; empty for the other calls.
    Panicked {
        buffer: Vec<u8>,
        window: Option<Window>,
    },
}

#[derive(Debug, Clone, Copy, PartialEq, Eq)]
pub enum Fault {
    PacketTooSmall,
    InvalidPacketType,
    UnavailablePrivateKey,
    DuplicatedSequence,
    CryptoError,
    IoError,
    Other,
}

#[derive(Debug, Clone, PartialEq, Eq)]
pub struct Encoded {
    pub result: Result<usize, Fault>,
    pub asked: Vec<Asked>,
    /// The very vector that was handed in, so that `Asked::place` can be measured from its start.
    pub out: Vec<u8>,
}

#[derive(Debug, Clone, PartialEq, Eq)]
pub struct Decoded {
    pub result: Result<(u64, Fields), Fault>,
    pub asked: Vec<Asked>,
    pub window: Option<Window>,
    /// The very vector that was handed in, as the call left it.
    pub datagram: Vec<u8>,
}

/// A result together with what the cipher was asked on the way.
pub type Watched<T> = (Result<T, Fault>, Vec<Asked>);

impl From<NetcodeError> for Fault {
    fn from(error: NetcodeError) -> Self {
        match error {
            NetcodeError::PacketTooSmall => Fault::PacketTooSmall,
            NetcodeError::InvalidPacketType => Fault::InvalidPacketType,
            NetcodeError::UnavailablePrivateKey => Fault::UnavailablePrivateKey,
            NetcodeError::DuplicatedSequence => Fault::DuplicatedSequence,
            NetcodeError::CryptoError => Fault::CryptoError,
            NetcodeError::IoError(_) => Fault::IoError,
            _ => Fault::Other,
        }
    }
}

impl From<io::Error> for Fault {
    fn from(_: io::Error) -> Self {
        Fault::IoError
    }
}

/// Silences the panics of the whole process, since here they are answers and not news.
pub fn quiet() {
    set_hook(Box::new(|_| {}));
}

/// `None` is a panic; the record is emptied and switched off either way.
fn watched<T>(work: impl FnOnce() -> T) -> Option<(T, Vec<Asked>)> {
    watch::start();
    let done = catch_unwind(AssertUnwindSafe(work));
    let asked = watch::take();
    Some((done.ok()?, asked))
}

fn answer<T>(done: Option<T>) -> Answer<T> {
    match done {
        Some(value) => Answer::Is(value),
        None => Answer::Panicked {
            buffer: Vec::new(),
            window: None,
        },
    }
}

/// Where a panic is an answer.
pub fn caught<T>(work: impl FnOnce() -> T) -> Answer<T> {
    answer(catch_unwind(AssertUnwindSafe(work)).ok())
}

pub fn encode(
    mut out: Vec<u8>,
    packet: &Fields,
    protocol: u64,
    key: Option<&[u8; 32]>,
    sequence: u64,
) -> Answer<Encoded> {
    // Built before the call, so that a harness's mistake is not taken for the original's panic.
    let packet = packet.packet();
    match watched(|| packet.encode(&mut out, protocol, key.map(|key| (sequence, key)))) {
        Some((result, asked)) => Answer::Is(Encoded {
            result: result.map_err(Fault::from),
            asked,
            out,
        }),
        None => Answer::Panicked {
            buffer: out,
            window: None,
        },
    }
}

pub fn decode(
    mut datagram: Vec<u8>,
    protocol: u64,
    key: Option<&[u8; 32]>,
    window: Option<&Window>,
) -> Answer<Decoded> {
    let mut replay = window.map(peek::from_words);
    let done = watched(|| {
        let decoded = Packet::decode(&mut datagram, protocol, key, replay.as_mut());
        decoded.map(|(sequence, packet)| (sequence, Fields::of(&packet)))
    });
    let window = replay.as_ref().map(peek::words);
    match done {
        Some((result, asked)) => Answer::Is(Decoded {
            result: result.map_err(Fault::from),
            asked,
            window,
            datagram,
        }),
        None => Answer::Panicked {
            buffer: datagram,
            window,
        },
    }
}

pub fn generate_challenge(
    client_id: u64,
    user_data: &[u8; 256],
    sequence: u64,
    key: &[u8; 32],
) -> Answer<Watched<[u8; 300]>> {
    let done = watched(|| Packet::generate_challenge(client_id, user_data, sequence, key));
    answer(done.map(|(result, asked)| {
        (
            result
                .map(|packet| challenge_token(packet, sequence))
                .map_err(Fault::from),
            asked,
        )
    }))
}

/// Panics where the original gives anything but a challenge of this sequence, which its text rules out.
fn challenge_token(packet: Packet, sequence: u64) -> [u8; 300] {
    match packet {
        Packet::Challenge {
            token_sequence,
            token_data,
        } if token_sequence == sequence => token_data,
        other => panic!("no challenge of sequence {sequence}: {other:?}"),
    }
}

pub fn decode_challenge(
    token: &[u8; 300],
    sequence: u64,
    key: &[u8; 32],
) -> Answer<Watched<(u64, [u8; 256])>> {
    let done = watched(|| ChallengeToken::decode(*token, sequence, key));
    answer(done.map(|(result, asked)| {
        (
            result
                .map(|token| (token.client_id, token.user_data))
                .map_err(Fault::from),
            asked,
        )
    }))
}

pub fn sequence_bytes_required(sequence: u64) -> usize {
    packet::peek::sequence_bytes_required(sequence)
}

pub fn encode_prefix(kind: u8, sequence: u64) -> u8 {
    packet::peek::encode_prefix(kind, sequence)
}

pub fn decode_prefix(prefix: u8) -> (u8, usize) {
    packet::peek::decode_prefix(prefix)
}

pub fn write_sequence(out: &mut [u8], sequence: u64) -> Answer<Result<usize, Fault>> {
    caught(|| packet::peek::write_sequence(out, sequence).map_err(Fault::from))
}

pub fn read_sequence(source: &[u8], len: usize) -> Answer<Result<u64, Fault>> {
    caught(|| packet::peek::read_sequence(source, len).map_err(Fault::from))
}

pub fn additional_data(prefix: u8, protocol: u64) -> [u8; 22] {
    packet::peek::get_additional_data(prefix, protocol)
}

pub fn token_additional_data(protocol: u64, expiry: u64) -> [u8; 29] {
    token::peek::get_additional_data(protocol, expiry)
}

pub fn new_window() -> Window {
    peek::words(&ReplayProtection::new())
}

pub fn already_received(window: &Window, sequence: u64) -> Answer<bool> {
    let replay = peek::from_words(window);
    caught(|| replay.already_received(sequence))
}

pub fn advance(window: &Window, sequence: u64) -> Answer<Window> {
    let mut replay = peek::from_words(window);
    caught(|| {
        replay.advance_sequence(sequence);
        peek::words(&replay)
    })
}
