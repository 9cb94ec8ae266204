//! Our server with all that a host lends it, behind safe functions. `lent` says how much of each buffer a call is lent.
//!
//! SAFETY, for all of them: every pointer is of a buffer in `self` or of an argument, with a length that the buffer has, and no
//! two that are lent to one call overlap.

use std::net::SocketAddr;

use oracle::lives::Private;

use crate::addresses::{three_words, Wire};
use crate::sys::{self, Held, Record, Told, Words};

mod asking;

pub const PLACE_WORDS: usize = 310;
pub const BODY_WORDS: usize = 305;
pub const ENTRY_BYTES: usize = 48;
pub const ENTRIES: usize = 2048;

/// Stands in every table and buffer before set-up, and where an answer comes, so that it shows what is written.
pub const UNWRITTEN: u8 = 0xA5;
const UNWRITTEN_WORD: u64 = 0xA5A5_A5A5_A5A5_A5A5;

/// How long the parts are that calls are lent.
#[derive(Debug, Clone, Copy)]
pub struct Lent {
    pub slots: usize,
    pub pending: usize,
    pub entries: usize,
    pub public: usize,
    pub out: usize,
    pub datagram: usize,
}

pub struct Ours {
    pub record: Record,
    pub slots: Vec<u64>,
    pub pending: Vec<u64>,
    pub entries: Vec<u8>,
    pub public: Vec<u64>,
    pub held: Held,
    pub out: Vec<u8>,
    pub datagram: Vec<u8>,
    pub answer: Words,
    pub told: Told,
    pub lent: Lent,
}

/// What set-up is given.
#[derive(Debug, Clone)]
pub struct SetUp {
    pub secs: u64,
    pub nanos: u64,
    pub max_clients: usize,
    pub protocol: u64,
    pub secure: bool,
    pub connect_key: [u8; 32],
    pub challenge_key: [u8; 32],
}

impl Ours {
    pub fn new(slots: usize, pending: usize, public: &[SocketAddr], out: usize) -> Self {
        let public: Vec<u64> = public.iter().copied().flat_map(three_words).collect();
        let lent = Lent {
            slots: slots * PLACE_WORDS,
            pending: pending * PLACE_WORDS,
            entries: ENTRIES * ENTRY_BYTES,
            public: public.len(),
            out,
            datagram: 0,
        };
        Self {
            record: [UNWRITTEN_WORD; sys::SERVER_WORDS],
            slots: vec![UNWRITTEN_WORD; lent.slots],
            pending: vec![UNWRITTEN_WORD; lent.pending],
            entries: vec![UNWRITTEN; lent.entries],
            public,
            held: [UNWRITTEN; sys::HELD_BYTES],
            out: vec![UNWRITTEN; out],
            datagram: Vec::new(),
            answer: [UNWRITTEN_WORD; sys::ANSWER_WORDS],
            told: [UNWRITTEN; sys::ASK_BYTES],
            lent,
        }
    }

    fn unanswered(&mut self) {
        self.answer = [UNWRITTEN_WORD; sys::ANSWER_WORDS];
        self.told = [UNWRITTEN; sys::ASK_BYTES];
    }

    /// What the next calls are lent as the datagram.
    pub fn receive(&mut self, datagram: &[u8]) {
        self.datagram.clear();
        self.datagram.extend_from_slice(datagram);
        self.lent.datagram = datagram.len();
    }

    pub fn set_up(&mut self, given: &SetUp) -> u8 {
        unsafe {
            sys::netcode_set_up(
                &mut self.record,
                given.secs,
                given.nanos,
                given.max_clients,
                given.protocol,
                u8::from(given.secure),
                &given.connect_key,
                &given.challenge_key,
                self.slots.as_mut_ptr(),
                self.lent.slots,
                self.pending.as_mut_ptr(),
                self.lent.pending,
                self.entries.as_mut_ptr(),
                self.lent.entries,
                self.public.as_ptr(),
                self.lent.public,
            )
        }
    }

    /// A call that never asks: its told bytes are zeros, as if it had written them.
    fn never_asks(&mut self) {
        self.told = [0; sys::ASK_BYTES];
    }

    pub fn update(&mut self, secs: u64, nanos: u64) {
        self.unanswered();
        let (pending, len) = (self.pending.as_mut_ptr(), self.lent.pending);
        let (record, answer) = (&mut self.record, &mut self.answer);
        unsafe { sys::netcode_update(record, pending, len, secs, nanos, answer) };
        self.never_asks();
    }

    pub fn set_max_clients(&mut self, max_clients: u64) {
        self.unanswered();
        let (record, answer) = (&mut self.record, &mut self.answer);
        unsafe { sys::netcode_set_max_clients(record, max_clients as usize, answer) };
        self.never_asks();
    }

    pub fn process_packet(&mut self, from: &Wire) {
        self.unanswered();
        unsafe {
            sys::netcode_process_packet(
                &mut self.record,
                from.kind,
                from.port,
                &from.ip,
                self.slots.as_mut_ptr(),
                self.lent.slots,
                self.pending.as_mut_ptr(),
                self.lent.pending,
                self.out.as_ptr(),
                self.lent.out,
                self.datagram.as_ptr(),
                self.lent.datagram,
                &mut self.answer,
                &mut self.told,
            );
        }
    }

    pub fn answer_open(&mut self, granted: bool) {
        self.unanswered();
        unsafe {
            sys::netcode_answer_open(
                &mut self.record,
                u8::from(granted),
                self.slots.as_mut_ptr(),
                self.lent.slots,
                self.pending.as_mut_ptr(),
                self.lent.pending,
                &mut self.held,
                self.out.as_mut_ptr(),
                self.lent.out,
                self.datagram.as_ptr(),
                self.lent.datagram,
                &mut self.answer,
                &mut self.told,
            );
        }
    }

    /// A no has fields too, which nobody looks at.
    pub fn answer_token(&mut self, granted: bool, token: &Private, addresses: &[u64]) {
        self.unanswered();
        unsafe {
            sys::netcode_answer_token(
                &mut self.record,
                u8::from(granted),
                token.client_id,
                token.timeout_seconds as u32,
                &token.server_to_client_key,
                &token.client_to_server_key,
                &token.user_data,
                addresses.as_ptr(),
                addresses.len(),
                self.slots.as_ptr(),
                self.lent.slots,
                self.pending.as_mut_ptr(),
                self.lent.pending,
                self.entries.as_mut_ptr(),
                self.lent.entries,
                self.public.as_ptr(),
                self.lent.public,
                &mut self.held,
                self.out.as_mut_ptr(),
                self.lent.out,
                self.datagram.as_ptr(),
                self.lent.datagram,
                &mut self.answer,
                &mut self.told,
            );
        }
    }

    pub fn answer_seal(&mut self, granted: bool) {
        self.unanswered();
        unsafe {
            sys::netcode_answer_seal(
                &mut self.record,
                u8::from(granted),
                self.slots.as_mut_ptr(),
                self.lent.slots,
                self.pending.as_mut_ptr(),
                self.lent.pending,
                &self.held,
                self.out.as_ptr(),
                self.lent.out,
                &mut self.answer,
                &mut self.told,
            );
        }
    }

    pub fn generate_payload_packet(&mut self, client_id: u64, payload: &[u8]) {
        self.unanswered();
        unsafe {
            sys::netcode_generate_payload_packet(
                &mut self.record,
                client_id,
                payload.as_ptr(),
                payload.len(),
                self.slots.as_ptr(),
                self.lent.slots,
                self.out.as_mut_ptr(),
                self.lent.out,
                &mut self.answer,
                &mut self.told,
            );
        }
    }

    pub fn update_client(&mut self, client_id: u64) {
        self.unanswered();
        let (slots, slots_len) = (self.slots.as_mut_ptr(), self.lent.slots);
        let (out, out_len) = (self.out.as_mut_ptr(), self.lent.out);
        let (answer, told) = (&mut self.answer, &mut self.told);
        let record = &mut self.record;
        unsafe {
            sys::netcode_update_client(
                record, client_id, slots, slots_len, out, out_len, answer, told,
            );
        }
    }

    pub fn disconnect(&mut self, client_id: u64) {
        self.unanswered();
        let (slots, slots_len) = (self.slots.as_mut_ptr(), self.lent.slots);
        let (out, out_len) = (self.out.as_mut_ptr(), self.lent.out);
        let (answer, told) = (&mut self.answer, &mut self.told);
        let record = &mut self.record;
        unsafe {
            sys::netcode_disconnect(
                record, client_id, slots, slots_len, out, out_len, answer, told,
            );
        }
    }
}
