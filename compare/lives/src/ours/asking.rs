//! The queries, likewise.

use super::{Ours, UNWRITTEN_WORD};
use crate::sys::{self, Record, Reply};

impl Ours {
    pub fn itself(&self) -> [u64; 3] {
        let mut itself = [UNWRITTEN_WORD; 3];
        unsafe { sys::netcode_server_itself(&self.record, &mut itself) };
        itself
    }

    fn reply(&self, query: impl FnOnce(*const Record, *const u64, usize, *mut Reply)) -> Reply {
        let mut reply = [UNWRITTEN_WORD; 5];
        query(
            &self.record,
            self.slots.as_ptr(),
            self.lent.slots,
            &mut reply,
        );
        reply
    }

    pub fn connected_clients(&self) -> Reply {
        self.reply(|server, slots, len, reply| unsafe {
            sys::netcode_connected_clients(server, slots, len, reply);
        })
    }

    pub fn is_client_connected(&self, id: u64) -> Reply {
        self.reply(|server, slots, len, reply| unsafe {
            sys::netcode_is_client_connected(server, slots, len, id, reply);
        })
    }

    pub fn client_addr(&self, id: u64) -> Reply {
        self.reply(|server, slots, len, reply| unsafe {
            sys::netcode_client_addr(server, slots, len, id, reply);
        })
    }

    pub fn time_since_last_received_packet(&self, id: u64) -> Reply {
        self.reply(|server, slots, len, reply| unsafe {
            sys::netcode_time_since_last_received_packet(server, slots, len, id, reply);
        })
    }

    pub fn user_data(&self, id: u64, into: &mut [u8; 256]) -> Reply {
        self.reply(|server, slots, len, reply| unsafe {
            sys::netcode_user_data(server, slots, len, id, into, reply);
        })
    }

    pub fn clients_id(&self, list: &mut [u64]) -> Reply {
        self.reply(|server, slots, len, reply| unsafe {
            sys::netcode_clients_id(server, slots, len, list.as_mut_ptr(), list.len(), reply);
        })
    }

    pub fn clients_slot(&self, list: &mut [u64]) -> Reply {
        self.reply(|server, slots, len, reply| unsafe {
            sys::netcode_clients_slot(server, slots, len, list.as_mut_ptr(), list.len(), reply);
        })
    }

    pub fn addresses(&self, list: &mut [u64]) -> Reply {
        let (public, len) = (self.public.as_ptr(), self.lent.public);
        self.reply(|server, _, _, reply| unsafe {
            sys::netcode_addresses(server, public, len, list.as_mut_ptr(), list.len(), reply);
        })
    }
}
