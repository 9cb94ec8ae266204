//! What the server must have counted of one pump, worked out without the library: from what the link delivered, in its order, and a
//! plain window, the highest sequence and the set of those accepted.

use std::collections::{BTreeSet, HashSet};
use std::time::Duration;

use crate::audit::History;
use crate::book::{Cause, Change, Event};
use crate::proxy::Delivered;

const WINDOW: u64 = 256;

const REQUEST: u8 = 0;
const RESPONSE: u8 = 3;
const KEEP_ALIVE: u8 = 4;
const DISCONNECT: u8 = 6;

#[derive(Default)]
struct Window {
    highest: u64,
    accepted: HashSet<u64>,
}

impl Window {
    fn accept(&mut self, sequence: u64) -> bool {
        let old = sequence.saturating_add(WINDOW) <= self.highest;
        if old || !self.accepted.insert(sequence) {
            return false;
        }
        self.highest = self.highest.max(sequence);
        true
    }
}

/// The readings, by number, and what was wrong with the connection.
#[derive(Debug, Default)]
pub struct Expectation {
    /// Those that came at all.
    pub arrived: BTreeSet<u64>,
    /// Those that came in time, so that they must be counted, once.
    pub counted: BTreeSet<u64>,
    pub faults: Vec<&'static str>,
}

#[derive(Default)]
struct Connection {
    window: Window,
    heard: Duration,
    said_goodbye: bool,
}

struct Walk<'a> {
    history: &'a History<'a>,
    timeout: Duration,
    connection: Option<Connection>,
    connected_before: bool,
    expectation: Expectation,
}

pub fn expect(history: &History, timeout: Duration) -> Expectation {
    let mut walk = Walk {
        history,
        timeout,
        connection: None,
        connected_before: false,
        expectation: Expectation::default(),
    };
    if history.account.arrived != history.delivered.len() {
        walk.fault("the server's socket did not get just what the proxy delivered");
    }
    let mut events = history.account.events.iter().peekable();
    for (place, delivered) in history.delivered.iter().enumerate() {
        walk.arrive(delivered);
        while let Some(event) = events.next_if(|event| event.after <= place + 1) {
            walk.change(event, delivered);
        }
    }
    if walk.is_leaving() {
        walk.fault("its goodbye was not taken");
    }
    if events.next().is_some() {
        walk.fault("connected or ended by a datagram that the proxy never delivered");
    }
    walk.expectation
}

impl Walk<'_> {
    fn fault(&mut self, what: &'static str) {
        self.expectation.faults.push(what);
    }

    fn is_leaving(&self) -> bool {
        self.connection.as_ref().is_some_and(|c| c.said_goodbye)
    }

    fn arrive(&mut self, delivered: &Delivered) {
        if self.is_leaving() {
            self.fault("its goodbye was not taken");
            self.connection = None;
        }
        // What the pump never made must have no effect.
        let Some(reading) = self.history.record.datagrams.get(&delivered.datagram) else {
            return;
        };
        self.expectation.arrived.extend(reading);
        let Some((packet_type, sequence)) = head(&delivered.datagram) else {
            return;
        };
        let Some(connection) = &mut self.connection else {
            return;
        };
        let windowed = packet_type >= KEEP_ALIVE;
        if windowed && !connection.window.accept(sequence) {
            return;
        }
        connection.heard = delivered.at;
        connection.said_goodbye = packet_type == DISCONNECT;
        self.expectation.counted.extend(reading);
    }

    fn change(&mut self, event: &Event, last: &Delivered) {
        if event.client_id != self.history.pump {
            self.fault("connected or ended as another pump");
        }
        match &event.change {
            Change::Connected { user_data } => self.connected(event, user_data, last),
            Change::Ended(cause) => self.ended(*cause, event.at),
        }
    }

    fn connected(&mut self, event: &Event, user_data: &[u8], last: &Delivered) {
        let record = self.history.record;
        let made = record.datagrams.contains_key(&last.datagram);
        if !made || head(&last.datagram).map(|(kind, _)| kind) != Some(RESPONSE) {
            self.fault("connected without a response from it");
        }
        if user_data != record.user_data {
            self.fault("connected with other user data than its token's");
        }
        // The window's promise is for keys that serve one connection.
        if self.connected_before {
            self.fault("connected again under one token");
        }
        self.connected_before = true;
        self.connection = Some(Connection {
            heard: event.at,
            ..Connection::default()
        });
    }

    fn ended(&mut self, cause: Cause, at: Duration) {
        let Some(connection) = self.connection.take() else {
            self.fault("ended, and was not connected");
            return;
        };
        match cause {
            Cause::Pump if !connection.said_goodbye => {
                self.fault("ended, and had not said goodbye")
            }
            Cause::Silence if connection.heard + self.timeout >= at => {
                self.fault("given up before its time");
            }
            _ => {}
        }
    }
}

/// The type and the sequence, which stand in clear; a request has no sequence.
fn head(datagram: &[u8]) -> Option<(u8, u64)> {
    let (prefix, rest) = datagram.split_first()?;
    let packet_type = prefix & 15;
    if packet_type == REQUEST {
        return Some((packet_type, 0));
    }
    let length = usize::from(prefix >> 4);
    let mut sequence = [0; 8];
    sequence
        .get_mut(..length)?
        .copy_from_slice(rest.get(..length)?);
    Some((packet_type, u64::from_le_bytes(sequence)))
}

#[cfg(test)]
mod tests {
    use super::{head, Window};

    #[test]
    fn heads_are_read() {
        assert_eq!(head(&[0x04, 9, 9]), Some((4, 0)));
        assert_eq!(head(&[0x15, 0xFF, 9]), Some((5, 255)));
        assert_eq!(head(&[0x25, 0x00, 0x01]), Some((5, 256)));
        assert_eq!(head(&[0x25, 0x00]), None);
        assert_eq!(head(&[0x95; 20]), None);
        assert_eq!(head(&[]), None);
    }

    #[test]
    fn the_window_is_document_01s() {
        let mut window = Window::default();
        assert!(window.accept(0) && !window.accept(0));
        assert!(window.accept(256) && !window.accept(0));
        let mut window = Window::default();
        assert!(window.accept(300));
        assert!(!window.accept(44) && window.accept(45) && !window.accept(45));
        assert!(window.accept(299) && !window.accept(300));
    }
}
