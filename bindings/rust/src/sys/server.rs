//! One server of the library with all memory that it is lent. The fields are private, so only the library writes them.
//!
//! SAFETY, for all calls: every pointer comes from a reference, a slice's with its own length; what is lent to one call belongs to
//! different fields or to the caller, and so does not overlap; and the library is proved to stay inside what it is lent.

mod queries;
mod told;

use std::time::Duration;

use super::library::*;
use crate::address::Address;
use crate::token::PrivateConnectToken;
use crate::{Refusal, NETCODE_KEY_BYTES, NETCODE_MAX_PACKET_BYTES};

const MAX_PENDING_CLIENTS: usize = 4096;
const MAX_ENTRIES: usize = 2048;

/// What a server is set up with.
pub struct Setting {
    pub current_time: Duration,
    pub max_clients: usize,
    pub protocol_id: u64,
    /// None where no token needs a key.
    pub connect_key: Option<[u8; NETCODE_KEY_BYTES]>,
    pub challenge_key: [u8; NETCODE_KEY_BYTES],
    /// Three words for each address.
    pub public_addresses: Box<[u64]>,
}

pub struct Server {
    record: Record,
    slots: Box<[u64]>,
    pending: Box<[u64]>,
    entries: Box<[u8]>,
    public: Box<[u64]>,
    held: Held,
    out: [u8; NETCODE_MAX_PACKET_BYTES],
    answer: Answered,
    ask: Asked,
}

impl Server {
    /// As many slots as renetcode makes, but one where it makes none.
    pub fn set_up(setting: Setting) -> Result<Self, Refusal> {
        // SAFETY: they take numbers alone.
        let (slots, pending, entries) = unsafe {
            (
                netcode_slots_words(setting.max_clients.max(1)),
                netcode_pending_words(MAX_PENDING_CLIENTS),
                netcode_entries_bytes(MAX_ENTRIES),
            )
        };
        let mut server = Self {
            record: [0; SERVER_WORDS],
            slots: vec![0; slots].into(),
            pending: vec![0; pending].into(),
            entries: vec![0; entries].into(),
            public: setting.public_addresses.clone(),
            held: [0; HELD_BYTES],
            out: [0; NETCODE_MAX_PACKET_BYTES],
            answer: [0; ANSWER_WORDS],
            ask: [0; ASK_BYTES],
        };
        match Refusal::from_number(server.begin(&setting).into()) {
            Some(refusal) => Err(refusal),
            None => Ok(server),
        }
    }

    fn begin(&mut self, setting: &Setting) -> u8 {
        unsafe {
            netcode_set_up(
                &mut self.record,
                setting.current_time.as_secs(),
                setting.current_time.subsec_nanos().into(),
                setting.max_clients,
                setting.protocol_id,
                setting.connect_key.is_some().into(),
                &setting.connect_key.unwrap_or_default(),
                &setting.challenge_key,
                self.slots.as_mut_ptr(),
                self.slots.len(),
                self.pending.as_mut_ptr(),
                self.pending.len(),
                self.entries.as_mut_ptr(),
                self.entries.len(),
                self.public.as_ptr(),
                self.public.len(),
            )
        }
    }

    pub fn update(&mut self, step: Duration) {
        unsafe {
            netcode_update(
                &mut self.record,
                self.pending.as_mut_ptr(),
                self.pending.len(),
                step.as_secs(),
                step.subsec_nanos().into(),
                &mut self.answer,
            )
        }
    }

    pub fn set_max_clients(&mut self, max_clients: usize) {
        unsafe { netcode_set_max_clients(&mut self.record, max_clients, &mut self.answer) }
    }

    pub fn process_packet(&mut self, addr: &Address, datagram: &[u8]) {
        unsafe {
            netcode_process_packet(
                &mut self.record,
                addr.kind,
                addr.port,
                &addr.ip,
                self.slots.as_mut_ptr(),
                self.slots.len(),
                self.pending.as_mut_ptr(),
                self.pending.len(),
                self.out.as_ptr(),
                self.out.len(),
                datagram.as_ptr(),
                datagram.len(),
                &mut self.answer,
                &mut self.ask,
            )
        }
    }

    pub fn answer_open(&mut self, granted: bool, datagram: &[u8]) {
        unsafe {
            netcode_answer_open(
                &mut self.record,
                granted.into(),
                self.slots.as_mut_ptr(),
                self.slots.len(),
                self.pending.as_mut_ptr(),
                self.pending.len(),
                &mut self.held,
                self.out.as_mut_ptr(),
                self.out.len(),
                datagram.as_ptr(),
                datagram.len(),
                &mut self.answer,
                &mut self.ask,
            )
        }
    }

    /// No token is a no.
    pub fn answer_token(&mut self, token: Option<&PrivateConnectToken>, datagram: &[u8]) {
        let granted = token.is_some();
        let token = token.unwrap_or(&PrivateConnectToken::NONE);
        let addresses = token.server_addresses();
        unsafe {
            netcode_answer_token(
                &mut self.record,
                granted.into(),
                token.client_id,
                token.timeout_seconds as u32,
                &token.server_to_client_key,
                &token.client_to_server_key,
                &token.user_data,
                addresses.as_ptr(),
                addresses.len(),
                self.slots.as_ptr(),
                self.slots.len(),
                self.pending.as_mut_ptr(),
                self.pending.len(),
                self.entries.as_mut_ptr(),
                self.entries.len(),
                self.public.as_ptr(),
                self.public.len(),
                &mut self.held,
                self.out.as_mut_ptr(),
                self.out.len(),
                datagram.as_ptr(),
                datagram.len(),
                &mut self.answer,
                &mut self.ask,
            )
        }
    }

    pub fn answer_seal(&mut self, granted: bool) {
        unsafe {
            netcode_answer_seal(
                &mut self.record,
                granted.into(),
                self.slots.as_mut_ptr(),
                self.slots.len(),
                self.pending.as_mut_ptr(),
                self.pending.len(),
                &self.held,
                self.out.as_ptr(),
                self.out.len(),
                &mut self.answer,
                &mut self.ask,
            )
        }
    }

    pub fn generate_payload_packet(&mut self, client_id: u64, payload: &[u8]) {
        unsafe {
            netcode_generate_payload_packet(
                &mut self.record,
                client_id,
                payload.as_ptr(),
                payload.len(),
                self.slots.as_ptr(),
                self.slots.len(),
                self.out.as_mut_ptr(),
                self.out.len(),
                &mut self.answer,
                &mut self.ask,
            )
        }
    }

    pub fn update_client(&mut self, client_id: u64) {
        unsafe {
            netcode_update_client(
                &mut self.record,
                client_id,
                self.slots.as_mut_ptr(),
                self.slots.len(),
                self.out.as_mut_ptr(),
                self.out.len(),
                &mut self.answer,
                &mut self.ask,
            )
        }
    }

    pub fn disconnect(&mut self, client_id: u64) {
        unsafe {
            netcode_disconnect(
                &mut self.record,
                client_id,
                self.slots.as_mut_ptr(),
                self.slots.len(),
                self.out.as_mut_ptr(),
                self.out.len(),
                &mut self.answer,
                &mut self.ask,
            )
        }
    }
}
