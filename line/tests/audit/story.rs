//! Made-up logs of pumps.

use std::time::Duration;

use line::audit::{audit, History, Report};
use line::book::{Account, Change, Counted, Event};
use line::fault::Fault;
use line::proxy::Delivered;
use line::pump::Record;

pub const REQUEST: u8 = 0;
pub const RESPONSE: u8 = 3;
pub const KEEP_ALIVE: u8 = 4;
const PAYLOAD: u8 = 5;
pub const DISCONNECT: u8 = 6;

pub const TIMEOUT: Duration = Duration::from_secs(5);

/// One pump's log; its response has sequence 1 and reading N has sequence N + 1.
pub struct Story {
    pub pump: u64,
    pub record: Record,
    pub delivered: Vec<Delivered>,
    pub account: Account,
    pub counted: Vec<Counted>,
    pub now: Duration,
}

impl Story {
    pub fn new(pump: u64) -> Self {
        Self {
            pump,
            record: Record {
                user_data: vec![pump as u8; 256],
                ..Record::default()
            },
            delivered: Vec::new(),
            account: Account::default(),
            counted: Vec::new(),
            now: Duration::ZERO,
        }
    }

    /// A pump that has connected and made so many readings.
    pub fn with_readings(pump: u64, readings: u64) -> Self {
        let mut story = Self::new(pump);
        story.send(REQUEST, 0);
        story.send(RESPONSE, 1);
        story.connected();
        for number in 1..=readings {
            let datagram = story.datagram(PAYLOAD, number + 1);
            story.record.datagrams.insert(datagram, Some(number));
            story.record.readings.push(payload(pump, number));
        }
        story
    }

    fn datagram(&self, packet_type: u8, sequence: u64) -> Vec<u8> {
        let [low, high, ..] = sequence.to_le_bytes();
        vec![0x20 | packet_type, low, high, self.pump as u8]
    }

    pub fn arrives(&mut self, datagram: Vec<u8>) {
        let at = self.now;
        self.delivered.push(Delivered { at, datagram });
        self.account.arrived += 1;
    }

    /// A datagram without a reading is made and delivered.
    pub fn send(&mut self, packet_type: u8, sequence: u64) {
        let datagram = self.datagram(packet_type, sequence);
        self.record.datagrams.insert(datagram.clone(), None);
        self.arrives(datagram);
    }

    pub fn deliver(&mut self, numbers: &[u64]) {
        for number in numbers {
            self.arrives(self.datagram(PAYLOAD, number + 1));
        }
    }

    pub fn count(&mut self, numbers: &[u64]) {
        for &number in numbers {
            self.counted.push(Counted {
                client_id: self.pump,
                payload: payload(self.pump, number),
            });
        }
    }

    pub fn event(&mut self, change: Change) {
        self.account.events.push(Event {
            client_id: self.pump,
            at: self.now,
            after: self.account.arrived,
            change,
        });
    }

    pub fn connected(&mut self) {
        let user_data = self.record.user_data.clone();
        self.event(Change::Connected { user_data });
    }

    pub fn faults(self) -> Vec<Fault> {
        judge(&[self]).faults
    }
}

fn payload(pump: u64, number: u64) -> Vec<u8> {
    vec![pump as u8, number as u8, (number >> 8) as u8]
}

pub fn judge(stories: &[Story]) -> Report {
    let histories: Vec<History> = stories
        .iter()
        .map(|story| History {
            pump: story.pump,
            record: &story.record,
            delivered: &story.delivered,
            account: &story.account,
        })
        .collect();
    let counted: Vec<Counted> = stories.iter().flat_map(|s| s.counted.clone()).collect();
    audit(&histories, &counted, TIMEOUT)
}

/// Of readings 1 to 5 the third comes twice, the fourth before the second, and the fifth is lost.
pub fn good(pump: u64) -> Story {
    let mut story = Story::with_readings(pump, 5);
    story.deliver(&[1, 3, 3, 4, 2]);
    story.count(&[1, 3, 4, 2]);
    story.record.acknowledged = vec![3, 1];
    story
}
