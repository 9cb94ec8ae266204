//! Packets, encoded and decoded with the host played in between.

use crate::host::{self, Ask};
use crate::{calls, Desk, Packet, Told, Window, ASKED, DONE, REFUSED, UNTOLD, UNWRITTEN};

/// What became of a call to encode, or to make a challenge token, and of its answer.
#[derive(Debug, Clone)]
pub struct Encoded {
    /// The refusal's number, 0 for none.
    pub number: u64,
    pub length: u64,
    pub ask: Option<Ask>,
    /// The buffer between call and answer, before the cipher worked on it.
    pub at_ask: Option<Vec<u8>>,
    pub out: Vec<u8>,
    /// The desk after the call and at the end, and what was told.
    pub first: Desk,
    pub last: Desk,
    pub told: Told,
    /// What no library should do, in words.
    pub broken: Option<String>,
}

/// A packet that was read.
#[derive(Debug, Clone, PartialEq, Eq)]
pub struct Read {
    pub sequence: u64,
    pub kind: u64,
    pub a: u64,
    pub b: u64,
    pub bytes: Vec<u8>,
}

/// What became of a call to decode, and of its answer.
#[derive(Debug, Clone)]
pub struct Decoded {
    /// The refusal's number, 0 for none.
    pub number: u64,
    pub read: Option<Read>,
    pub ask: Option<Ask>,
    /// Datagram and window between call and answer, before the cipher worked.
    pub at_ask: Option<(Vec<u8>, Option<Window>)>,
    pub datagram: Vec<u8>,
    pub window: Option<Window>,
    pub first: Desk,
    pub last: Desk,
    pub told: Told,
    pub broken: Option<String>,
}

/// Stands where no window is given; the library must leave it as it is.
const UNGUARDED: Window = [0xA5A5; 257];

pub fn encode(
    mut out: Vec<u8>,
    packet: &Packet,
    protocol: u64,
    key: Option<&[u8; 32]>,
    sequence: u64,
) -> Encoded {
    let (mut desk, mut told) = (UNWRITTEN, UNTOLD);
    calls::encode(
        &mut out, packet, protocol, key, sequence, &mut desk, &mut told,
    );
    seal(out, desk, told)
}

/// Goes on from the desk of a call that may ask for a seal.
pub(crate) fn seal(out: Vec<u8>, first: Desk, told: Told) -> Encoded {
    let mut encoded = Encoded {
        number: 0,
        length: 0,
        ask: None,
        at_ask: None,
        out,
        first,
        last: first,
        told,
        broken: None,
    };
    if first[0] == ASKED {
        let work = answer_seal(&mut encoded);
        encoded.broken = work.err();
    }
    encoded.settle();
    encoded
}

fn answer_seal(encoded: &mut Encoded) -> Result<(), String> {
    let mut ask = host::ask_on(&encoded.first, &encoded.told, &encoded.out)?;
    encoded.at_ask = Some(encoded.out.clone());
    host::answer(&mut ask, &mut encoded.out);
    let sealed = encoded.out.clone();
    calls::answer_seal(&encoded.out, ask.granted, &mut encoded.last);
    encoded.ask = Some(ask);
    unwritten(&sealed, &encoded.out)
}

/// An answer is lent its buffer to read only.
pub(crate) fn unwritten(before: &[u8], after: &[u8]) -> Result<(), String> {
    if before == after {
        Ok(())
    } else {
        Err("the answer wrote into the buffer".into())
    }
}

impl Encoded {
    fn settle(&mut self) {
        match self.last[0] {
            REFUSED => self.number = self.last[1],
            DONE => self.length = self.last[1],
            other => note(&mut self.broken, format!("the desk ends with {other}")),
        }
    }
}

/// The first thing that broke is kept.
pub(crate) fn note(broken: &mut Option<String>, what: String) {
    broken.get_or_insert(what);
}

pub fn decode(
    datagram: Vec<u8>,
    protocol: u64,
    key: Option<&[u8; 32]>,
    window: Option<&Window>,
) -> Decoded {
    let guarded = window.is_some();
    let mut words = *window.unwrap_or(&UNGUARDED);
    let (mut desk, mut told) = (UNWRITTEN, UNTOLD);
    calls::decode(
        &datagram, protocol, key, guarded, &mut words, &mut desk, &mut told,
    );
    let mut decoded = Decoded {
        number: 0,
        read: None,
        ask: None,
        at_ask: None,
        datagram,
        window: None,
        first: desk,
        last: desk,
        told,
        broken: None,
    };
    if desk[0] == ASKED {
        let work = answer_open(&mut decoded, guarded, &mut words);
        decoded.broken = work.err();
    }
    decoded.settle(guarded, words);
    decoded
}

fn answer_open(decoded: &mut Decoded, guarded: bool, words: &mut Window) -> Result<(), String> {
    let mut ask = host::ask_on(&decoded.first, &decoded.told, &decoded.datagram)?;
    decoded.at_ask = Some((decoded.datagram.clone(), guarded.then_some(*words)));
    host::answer(&mut ask, &mut decoded.datagram);
    let opened = decoded.datagram.clone();
    calls::answer_open(
        &decoded.datagram,
        guarded,
        words,
        ask.granted,
        &mut decoded.last,
    );
    decoded.ask = Some(ask);
    unwritten(&opened, &decoded.datagram)
}

impl Decoded {
    fn settle(&mut self, guarded: bool, words: Window) {
        match self.last[0] {
            REFUSED => self.number = self.last[1],
            DONE => match self.take_packet() {
                Ok(read) => self.read = Some(read),
                Err(what) => note(&mut self.broken, what),
            },
            other => note(&mut self.broken, format!("the desk ends with {other}")),
        }
        if guarded {
            self.window = Some(words);
        } else if words != UNGUARDED {
            note(&mut self.broken, "a window that was not given moved".into());
        }
    }

    fn take_packet(&self) -> Result<Read, String> {
        let [sequence, kind, a, b, start, end] = [2, 3, 4, 5, 6, 7].map(|at| self.last[at]);
        let fields: &[u8] = match kind {
            0 => &[0, 1, 2],
            2 | 3 => &[3],
            5 => &[4],
            1 | 4 | 6 => &[],
            other => return Err(format!("a packet of type {other}")),
        };
        let mut bytes = Vec::new();
        for which in fields {
            self.take_field(*which, start, end, &mut bytes)?;
        }
        Ok(Read {
            sequence,
            kind,
            a,
            b,
            bytes,
        })
    }

    /// Adds a field's bytes; one longer than the datagram is no field.
    fn take_field(&self, which: u8, at: u64, end: u64, to: &mut Vec<u8>) -> Result<(), String> {
        let before = to.len();
        to.resize(before + self.datagram.len(), 0);
        let room = &mut to[before..];
        let len = calls::field(which, &self.datagram, at as usize, end as usize, room);
        if len > room.len() {
            return Err(format!("field {which} of {len} bytes"));
        }
        to.truncate(before + len);
        Ok(())
    }
}
