//! A server's datagrams, its host's answers and what it sends: one safe function for each call of `netcode`,
//! nothing added. The tables and buffers that a host lends stand together in `Lent`.
//!
//! SAFETY, for all of them: as in `calls`.

use crate::servers::{Answer, Record, UNANSWERED};
use crate::sys::servers as sys;
use crate::tables::Address;

pub use sys::{Held, Told};

/// Stands where an ask comes, so that it shows whether one was written.
pub const UNTOLD: Told = [0xA5; 85];

/// The server's record and all that is lent beside it, but for the datagram.
#[derive(Debug, Clone, PartialEq, Eq)]
pub struct Lent {
    pub record: Record,
    pub slots: Vec<u64>,
    pub pending: Vec<u64>,
    pub entries: Vec<u8>,
    pub public: Vec<u64>,
    pub held: Held,
    pub out: Vec<u8>,
}

/// What the host read in a private token; the addresses are three words each.
#[derive(Debug, Clone, PartialEq, Eq)]
pub struct Token {
    pub client_id: u64,
    pub timeout_seconds: i32,
    pub server_to_client_key: [u8; 32],
    pub client_to_server_key: [u8; 32],
    pub user_data: [u8; 256],
    pub server_addresses: Vec<u64>,
}

/// What a call answers, and what it tells the cipher.
pub type Said = (Answer, Told);

impl Lent {
    pub fn process_packet(&mut self, from: &Address, datagram: &[u8]) -> Said {
        let (mut answer, mut told) = (UNANSWERED, UNTOLD);
        unsafe {
            sys::netcode_process_packet(
                &mut self.record,
                from.kind,
                from.port,
                &from.bytes,
                self.slots.as_mut_ptr(),
                self.slots.len(),
                self.pending.as_mut_ptr(),
                self.pending.len(),
                self.out.as_ptr(),
                self.out.len(),
                datagram.as_ptr(),
                datagram.len(),
                &mut answer,
                &mut told,
            )
        };
        (answer, told)
    }

    pub fn answer_open(&mut self, granted: bool, datagram: &[u8]) -> Said {
        let (mut answer, mut told) = (UNANSWERED, UNTOLD);
        unsafe {
            sys::netcode_answer_open(
                &mut self.record,
                granted.into(),
                self.slots.as_mut_ptr(),
                self.slots.len(),
                self.pending.as_mut_ptr(),
                self.pending.len(),
                &mut self.held,
                self.out.as_mut_ptr(),
                self.out.len(),
                datagram.as_ptr(),
                datagram.len(),
                &mut answer,
                &mut told,
            )
        };
        (answer, told)
    }

    pub fn answer_token(&mut self, granted: bool, token: &Token, datagram: &[u8]) -> Said {
        let (mut answer, mut told) = (UNANSWERED, UNTOLD);
        unsafe {
            sys::netcode_answer_token(
                &mut self.record,
                granted.into(),
                token.client_id,
                token.timeout_seconds as u32,
                &token.server_to_client_key,
                &token.client_to_server_key,
                &token.user_data,
                token.server_addresses.as_ptr(),
                token.server_addresses.len(),
                self.slots.as_ptr(),
                self.slots.len(),
                self.pending.as_mut_ptr(),
                self.pending.len(),
                self.entries.as_mut_ptr(),
                self.entries.len(),
                self.public.as_ptr(),
                self.public.len(),
                &mut self.held,
                self.out.as_mut_ptr(),
                self.out.len(),
                datagram.as_ptr(),
                datagram.len(),
                &mut answer,
                &mut told,
            )
        };
        (answer, told)
    }

    pub fn answer_seal(&mut self, granted: bool) -> Said {
        let (mut answer, mut told) = (UNANSWERED, UNTOLD);
        unsafe {
            sys::netcode_answer_seal(
                &mut self.record,
                granted.into(),
                self.slots.as_mut_ptr(),
                self.slots.len(),
                self.pending.as_mut_ptr(),
                self.pending.len(),
                &self.held,
                self.out.as_ptr(),
                self.out.len(),
                &mut answer,
                &mut told,
            )
        };
        (answer, told)
    }

    pub fn generate_payload_packet(&mut self, client_id: u64, payload: &[u8]) -> Said {
        let (mut answer, mut told) = (UNANSWERED, UNTOLD);
        unsafe {
            sys::netcode_generate_payload_packet(
                &mut self.record,
                client_id,
                payload.as_ptr(),
                payload.len(),
                self.slots.as_ptr(),
                self.slots.len(),
                self.out.as_mut_ptr(),
                self.out.len(),
                &mut answer,
                &mut told,
            )
        };
        (answer, told)
    }

    pub fn update_client(&mut self, client_id: u64) -> Said {
        self.attend(sys::netcode_update_client, client_id)
    }

    pub fn disconnect(&mut self, client_id: u64) -> Said {
        self.attend(sys::netcode_disconnect, client_id)
    }

    fn attend(&mut self, call: Attend, client_id: u64) -> Said {
        let (mut answer, mut told) = (UNANSWERED, UNTOLD);
        unsafe {
            call(
                &mut self.record,
                client_id,
                self.slots.as_mut_ptr(),
                self.slots.len(),
                self.out.as_mut_ptr(),
                self.out.len(),
                &mut answer,
                &mut told,
            )
        };
        (answer, told)
    }
}

/// The two calls about one client, which are lent alike.
type Attend =
    unsafe extern "C" fn(*mut Record, u64, *mut u64, usize, *mut u8, usize, *mut Answer, *mut Told);
