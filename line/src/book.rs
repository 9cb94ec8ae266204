//! What the server's side writes down of every datagram that reached it.

use std::collections::{BTreeMap, HashMap};
use std::net::SocketAddr;
use std::time::Duration;

/// A reading as it was booked.
#[derive(Debug, Clone)]
pub struct Counted {
    pub client_id: u64,
    pub payload: Vec<u8>,
}

#[derive(Debug, Clone, Copy, PartialEq, Eq)]
pub enum Cause {
    /// The pump said goodbye.
    Pump,
    /// Nothing came for the time of its token.
    Silence,
    /// The server sent it away.
    Server,
}

#[derive(Debug, Clone, PartialEq, Eq)]
pub enum Change {
    Connected { user_data: Vec<u8> },
    Ended(Cause),
}

/// A connection's beginning or end.
#[derive(Debug, Clone)]
pub struct Event {
    pub client_id: u64,
    pub at: Duration,
    /// How many datagrams had come from the address, the one that made the change among them.
    pub after: usize,
    pub change: Change,
}

/// All that concerns one address.
#[derive(Debug, Clone, Default)]
pub struct Account {
    pub arrived: usize,
    pub sent: u64,
    pub counted: u64,
    /// How often, by the refusal's number.
    pub refused: BTreeMap<u8, u64>,
    pub events: Vec<Event>,
}

#[derive(Default)]
pub struct Book {
    pub counted: Vec<Counted>,
    accounts: HashMap<SocketAddr, Account>,
    strangers: Account,
}

impl Book {
    pub fn open(&mut self, address: SocketAddr) {
        self.accounts.insert(address, Account::default());
    }

    /// The account of an address; all for which none was opened share one, so that strangers can't fill the memory.
    pub fn account(&mut self, address: SocketAddr) -> &mut Account {
        self.accounts
            .get_mut(&address)
            .unwrap_or(&mut self.strangers)
    }

    pub fn look(&self, address: SocketAddr) -> &Account {
        self.accounts.get(&address).unwrap_or(&self.strangers)
    }

    pub fn strangers(&self) -> &Account {
        &self.strangers
    }

    pub fn event(&mut self, address: SocketAddr, client_id: u64, at: Duration, change: Change) {
        let account = self.account(address);
        account.events.push(Event {
            client_id,
            at,
            after: account.arrived,
            change,
        });
    }
}
