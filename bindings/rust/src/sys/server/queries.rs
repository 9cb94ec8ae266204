//! The queries, which change nothing. SAFETY: as in the module above.

use std::time::Duration;

use super::Server;
use crate::sys::library::*;
use crate::NETCODE_USER_DATA_BYTES;

const CONNECTED: u64 = 2;
const COUNT: u64 = 3;
const ADDRESS: u64 = 4;
const SINCE: u64 = 5;
const USER_DATA: u64 = 6;

const UNANSWERED: Reply = [0; REPLY_WORDS];

/// The count of a reply that is one.
fn count_in(reply: Reply) -> usize {
    match reply[0] {
        COUNT => reply[2] as usize,
        _ => 0,
    }
}

impl Server {
    /// The client limit and the clock.
    pub fn itself(&self) -> (usize, Duration) {
        let mut words = [0; 3];
        unsafe { netcode_server_itself(&self.record, &mut words) };
        (words[0] as usize, Duration::new(words[1], words[2] as u32))
    }

    pub fn connected_clients(&self) -> usize {
        let mut reply = UNANSWERED;
        let (slots, len) = (self.slots.as_ptr(), self.slots.len());
        unsafe { netcode_connected_clients(&self.record, slots, len, &mut reply) };
        count_in(reply)
    }

    pub fn is_client_connected(&self, client_id: u64) -> bool {
        let mut reply = UNANSWERED;
        let (slots, len) = (self.slots.as_ptr(), self.slots.len());
        unsafe { netcode_is_client_connected(&self.record, slots, len, client_id, &mut reply) };
        reply[0] == CONNECTED
    }

    /// Three words.
    pub fn client_addr(&self, client_id: u64) -> Option<[u64; 3]> {
        let mut reply = UNANSWERED;
        let (slots, len) = (self.slots.as_ptr(), self.slots.len());
        unsafe { netcode_client_addr(&self.record, slots, len, client_id, &mut reply) };
        (reply[0] == ADDRESS).then(|| [reply[2], reply[3], reply[4]])
    }

    pub fn time_since_last_received_packet(&self, client_id: u64) -> Option<Duration> {
        let mut reply = UNANSWERED;
        let (slots, len) = (self.slots.as_ptr(), self.slots.len());
        unsafe {
            netcode_time_since_last_received_packet(&self.record, slots, len, client_id, &mut reply)
        };
        (reply[0] == SINCE).then(|| Duration::new(reply[2], reply[3] as u32))
    }

    pub fn user_data(&self, client_id: u64) -> Option<[u8; NETCODE_USER_DATA_BYTES]> {
        let mut reply = UNANSWERED;
        let mut data = [0; NETCODE_USER_DATA_BYTES];
        let (slots, len) = (self.slots.as_ptr(), self.slots.len());
        unsafe { netcode_user_data(&self.record, slots, len, client_id, &mut data, &mut reply) };
        (reply[0] == USER_DATA).then_some(data)
    }

    /// Fills the list and gives how many; a list that is too short stays as it is.
    pub fn clients_id(&self, list: &mut [u64]) -> usize {
        let mut reply = UNANSWERED;
        let (slots, len) = (self.slots.as_ptr(), self.slots.len());
        let (to, room) = (list.as_mut_ptr(), list.len());
        unsafe { netcode_clients_id(&self.record, slots, len, to, room, &mut reply) };
        count_in(reply)
    }

    /// The same, of slots.
    pub fn clients_slot(&self, list: &mut [u64]) -> usize {
        let mut reply = UNANSWERED;
        let (slots, len) = (self.slots.as_ptr(), self.slots.len());
        let (to, room) = (list.as_mut_ptr(), list.len());
        unsafe { netcode_clients_slot(&self.record, slots, len, to, room, &mut reply) };
        count_in(reply)
    }

    /// Three words for each of the server's own addresses.
    pub fn addresses(&self) -> Vec<u64> {
        let mut reply = UNANSWERED;
        let mut list = vec![0; self.public.len()];
        let (public, len) = (self.public.as_ptr(), self.public.len());
        let (to, room) = (list.as_mut_ptr(), list.len());
        unsafe { netcode_addresses(&self.record, public, len, to, room, &mut reply) };
        list
    }
}
