//! Our server straight through `netcode.h`, for readings received: what a host in C has to do and no more.

mod sys;

use std::net::SocketAddr;

use netcode::{Cipher, Nonce, Part, Terms};

use super::line::Connected;
use super::pumps::TIMEOUT_SECONDS;
use super::sides::{Came, Receive, CHALLENGE_KEY, PRIVATE_KEY, PROTOCOL, START};
use sys::{Answer, Ask, Held, Record};

const PLACE_WORDS: usize = 310;
const BODY_WORDS: usize = 305;
const PENDING: usize = 4096;
const ENTRIES: usize = 2048;
const ENTRY_BYTES: usize = 48;
const OUT_BYTES: usize = 1400;

// Places in a connection's body.
const RECEIVE_KEY: usize = 5;
const RECEIVED: usize = 9;
const SENT: usize = 11;
const TIMEOUT: usize = 13;
const WINDOW_PLACES: usize = 49;

// Places in an answer, and two of its cases.
const CASE: usize = 0;
const CLIENT_ID: usize = 2;
const START_AT: usize = 7;
const END: usize = 8;
const ADDITIONAL_SIZE: usize = 11;
const PART_START: usize = 12;
const PART_END: usize = 13;
const ASK: u64 = 2;
const PAYLOAD: u64 = 4;

pub struct Straight<C> {
    server: Record,
    slots: Vec<u64>,
    pending: Vec<u64>,
    out: [u8; OUT_BYTES],
    held: Held,
    answer: Answer,
    ask: Ask,
    cipher: C,
}

/// Kind, port and 16 bytes.
fn parts_of(addr: SocketAddr) -> (u8, u16, [u8; 16]) {
    match addr {
        SocketAddr::V4(addr) => {
            let mut ip = [0; 16];
            ip[..4].copy_from_slice(&addr.ip().octets());
            (4, addr.port(), ip)
        }
        SocketAddr::V6(addr) => (6, addr.port(), addr.ip().octets()),
    }
}

fn word(bytes: &[u8]) -> u64 {
    u64::from_le_bytes(bytes.try_into().expect("eight bytes"))
}

/// Writes a connected pump into its place, as a handshake leaves it in all that a reading looks at.
fn lay<P>(slots: &mut [u64], places: usize, place: usize, of: &Connected<P>) {
    let (kind, port, ip) = parts_of(of.addr);
    slots[place] = 1;
    slots[places + place] = of.client_id;
    let address = [
        u64::from(kind) << 16 | u64::from(port),
        word(&ip[..8]),
        word(&ip[8..]),
    ];
    slots[2 * places + 3 * place..][..3].copy_from_slice(&address);
    let body = &mut slots[5 * places + BODY_WORDS * place..][..BODY_WORDS];
    for (at, bytes) in of.key.chunks(8).enumerate() {
        body[RECEIVE_KEY + at] = word(bytes);
    }
    body[RECEIVED] = START.as_secs();
    body[SENT] = START.as_secs();
    body[TIMEOUT] = TIMEOUT_SECONDS as u64;
    body[WINDOW_PLACES..].fill(u64::MAX);
}

impl<C: Cipher + Default> Straight<C> {
    /// A slot for each pump, all connected.
    pub fn new<P>(pumps: &[Connected<P>]) -> Self {
        let mut straight = Self {
            server: [0; 34],
            slots: vec![0; PLACE_WORDS * pumps.len()],
            pending: vec![0; PLACE_WORDS * PENDING],
            out: [0; OUT_BYTES],
            held: [0; 340],
            answer: [0; 14],
            ask: [0; 85],
            cipher: C::default(),
        };
        straight.set_up(pumps.len());
        for (place, of) in pumps.iter().enumerate() {
            lay(&mut straight.slots, pumps.len(), place, of);
        }
        straight
    }

    fn set_up(&mut self, slots: usize) {
        let mut entries = vec![0; ENTRY_BYTES * ENTRIES];
        let public: [u64; 0] = [];
        // SAFETY: every pointer stands with the length of its own slice, and none overlap.
        let refusal = unsafe {
            sys::netcode_set_up(
                &mut self.server,
                START.as_secs(),
                0,
                slots,
                PROTOCOL,
                1,
                &PRIVATE_KEY,
                &CHALLENGE_KEY,
                self.slots.as_mut_ptr(),
                self.slots.len(),
                self.pending.as_mut_ptr(),
                self.pending.len(),
                entries.as_mut_ptr(),
                entries.len(),
                public.as_ptr(),
                public.len(),
            )
        };
        assert_eq!(refusal, 0);
    }

    fn process(&mut self, addr: SocketAddr, datagram: &[u8]) {
        let (kind, port, ip) = parts_of(addr);
        // SAFETY: as in set_up.
        unsafe {
            sys::netcode_process_packet(
                &mut self.server,
                kind,
                port,
                &ip,
                self.slots.as_mut_ptr(),
                self.slots.len(),
                self.pending.as_mut_ptr(),
                self.pending.len(),
                self.out.as_ptr(),
                self.out.len(),
                datagram.as_ptr(),
                datagram.len(),
                &mut self.answer,
                &mut self.ask,
            );
        }
    }

    /// The cipher's work on the part that the ask names, which for a reading has a nonce of 12 bytes.
    fn open(&mut self, datagram: &mut [u8]) -> bool {
        let (key, rest) = self.ask.split_first_chunk().expect("85 bytes");
        let (nonce, _) = rest.split_first_chunk().expect("53 bytes");
        let additional = &self.ask[56..56 + self.answer[ADDITIONAL_SIZE] as usize];
        let terms = Terms {
            key,
            nonce: Nonce::Packet(nonce),
            additional,
        };
        let part = &mut datagram[self.answer[PART_START] as usize..self.answer[PART_END] as usize];
        let (text, tag) = part.split_last_chunk_mut().expect("a tag");
        self.cipher.open(&terms, Part { text, tag })
    }

    fn answer(&mut self, granted: bool, datagram: &[u8]) {
        // SAFETY: as in set_up.
        unsafe {
            sys::netcode_answer_open(
                &mut self.server,
                granted.into(),
                self.slots.as_mut_ptr(),
                self.slots.len(),
                self.pending.as_mut_ptr(),
                self.pending.len(),
                &mut self.held,
                self.out.as_mut_ptr(),
                self.out.len(),
                datagram.as_ptr(),
                datagram.len(),
                &mut self.answer,
                &mut self.ask,
            );
        }
    }
}

impl<C: Cipher + Default> Receive for Straight<C> {
    fn process_packet<'a>(&'a mut self, addr: SocketAddr, datagram: &'a mut [u8]) -> Came<'a> {
        self.process(addr, datagram);
        if self.answer[CASE] == ASK {
            let granted = self.open(datagram);
            self.answer(granted, datagram);
        }
        if self.answer[CASE] != PAYLOAD {
            return Came::Nothing;
        }
        Came::Payload {
            client_id: self.answer[CLIENT_ID],
            payload: &datagram[self.answer[START_AT] as usize..self.answer[END] as usize],
        }
    }
}
