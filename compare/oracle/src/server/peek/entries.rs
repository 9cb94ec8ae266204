use std::{net::SocketAddr, time::Duration};

use super::super::{ConnectTokenEntry, NetcodeServer, ServerAuthentication};
use super::server;

/// When, from where, and the token's last 16 private bytes.
pub type Entry = (Duration, SocketAddr, [u8; 16]);

/// A server of which only the 2,048 token entries count.
pub struct Entries(NetcodeServer);

impl Entries {
    /// Panics for another number than 2,048, which is a mistake of the harness.
    pub fn new(entries: impl ExactSizeIterator<Item = Option<Entry>>) -> Self {
        let mut server = server(Duration::ZERO, ServerAuthentication::Unsecure);
        assert_eq!(entries.len(), server.connect_token_entries.len());
        for (place, entry) in server.connect_token_entries.iter_mut().zip(entries) {
            *place = entry.map(given);
        }
        Self(server)
    }

    #[inline]
    pub fn find_or_add(&mut self, entry: Entry) -> bool {
        self.0.find_or_add_connect_token_entry(given(entry))
    }

    pub fn all(&self) -> impl Iterator<Item = Option<Entry>> + '_ {
        let entries = self.0.connect_token_entries.iter();
        entries.map(|entry| entry.map(|entry| (entry.time, entry.address, entry.mac)))
    }
}

fn given((time, address, mac): Entry) -> ConnectTokenEntry {
    ConnectTokenEntry { time, address, mac }
}
