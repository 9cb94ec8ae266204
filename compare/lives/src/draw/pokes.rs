//! States that no call leaves, and counters near their ends.

use oracle::lives::{self, NetcodeServer};

use super::World;
use crate::call::Call;
use crate::poke::{Poke, CONFIRMED, RECEIVED, SENT, SEQUENCE, TIMEOUT, WINDOW};

impl World {
    /// One pending client less than there can be, then requests: the first takes the last place, and comes again.
    pub fn draw_crowd(&mut self) -> Vec<Call> {
        let mut calls: Vec<Call> = (0..3.min(self.clients.len()))
            .map(|who| self.plain_request(who))
            .collect();
        calls.insert(1, calls[0].clone());
        calls.insert(
            0,
            Call::Poke(Poke::PendingFill {
                count: 4095,
                expiry: u64::MAX,
            }),
        );
        calls
    }

    /// A request that waits, every other place taken, then that request again and another's.
    pub fn packed(&self) -> Vec<Call> {
        let fill = Poke::PendingFill {
            count: 4096,
            expiry: u64::MAX,
        };
        let [first, other] = [0, 1].map(|who| self.plain_request(who));
        vec![first.clone(), Call::Poke(fill), first, other]
    }

    /// What the sample's lines can say in few words: counters at their ends, every token entry used, two for one token.
    pub fn draw_small_poke(&mut self, server: &NetcodeServer) -> Call {
        Call::Poke(match self.rng.below(8) {
            0 | 1 => self.counters(server),
            2 => self.pending(server),
            3 => Poke::Entries {
                secs: 0,
                lowest: self.rng.pick(&[1, 1000, 2047]),
                again: self.rng.pick(&[1500, 2047]),
            },
            4 => return self.twin(server),
            _ => Poke::Slot {
                slot: self.draw_slot(server),
                words: vec![(SEQUENCE, u64::MAX)],
            },
        })
    }

    pub fn draw_poke(&mut self, server: &NetcodeServer) -> Call {
        Call::Poke(match self.rng.below(16) {
            0 => self.counters(server),
            1 => self.pending(server),
            2 if self.rng.one_in(3) => self.entries(server),
            2 => return self.twin(server),
            3 => self.clock(server),
            4..=8 => self.slot_as_another(server),
            _ => self.slot_words(server),
        })
    }

    /// A slot with another's id, address or record, emptied, or with another mark.
    fn slot_as_another(&mut self, server: &NetcodeServer) -> Poke {
        let slots = lives::slots(server);
        let slot = self.draw_slot(server);
        match self.rng.below(5) {
            0 => Poke::SlotId {
                slot,
                id: self.draw_id(server),
            },
            1 => Poke::SlotAddress {
                slot,
                to: self.clients[self.rng.below(self.clients.len())].from,
            },
            2 => Poke::SlotCopy {
                from: slot,
                to: self.rng.below(slots),
            },
            3 => Poke::SlotEmpty {
                slot: self.rng.below(slots),
            },
            _ => Poke::Mark {
                slot,
                mark: self.rng.pick(&[2, 1 << 32, u64::MAX]),
            },
        }
    }

    fn slot_words(&mut self, server: &NetcodeServer) -> Poke {
        let slot = self.draw_slot(server);
        let words = match self.rng.below(7) {
            0 | 1 => self.times(server),
            2 | 3 => vec![(SEQUENCE, u64::MAX - self.rng.below(3) as u64)],
            4 => {
                let timeouts = [0, 1, 5, 1 << 31, u64::from(u32::MAX)];
                vec![(TIMEOUT, self.rng.pick(&timeouts))]
            }
            _ => self.window(),
        };
        Poke::Slot { slot, words }
    }

    /// A used slot, mostly.
    fn draw_slot(&mut self, server: &NetcodeServer) -> usize {
        let used = server.clients_slot();
        match used.len() {
            0 => self.rng.below(lives::slots(server)),
            len => used[self.rng.below(len)],
        }
    }

    /// Near their ends for some calls, or where they get a byte more.
    fn counters(&mut self, server: &NetcodeServer) -> Poke {
        let [global, challenge] = lives::counters(server);
        let high = u64::MAX - self.rng.below(3) as u64;
        let edge = self.rng.near_byte(2);
        self.spent_for = 30;
        Poke::Counters(match self.rng.below(6) {
            0 | 1 => [high, challenge],
            2 | 3 => [global, high],
            4 => [high, high],
            _ => [edge, edge],
        })
    }

    pub fn low_counters(&mut self) -> Call {
        let low = [self.rng.below(300) as u64, self.rng.below(300) as u64];
        Call::Poke(Poke::Counters(low))
    }

    /// The received or the sent time, later than now, long ago or at an edge.
    fn times(&mut self, server: &NetcodeServer) -> Vec<(usize, u64)> {
        let now = server.current_time();
        let secs = match self.rng.below(6) {
            0 => u64::MAX,
            1 => now.as_secs().saturating_add(3),
            2 => 0,
            _ => now.as_secs().saturating_sub(self.rng.below(20) as u64),
        };
        let nanos = self.rng.pick(&[
            0,
            u64::from(now.subsec_nanos()),
            749_999_999,
            750_000_000,
            999_999_999,
        ]);
        let at = self.rng.pick(&[RECEIVED, SENT]);
        vec![(at, secs), (at + 1, nanos), (CONFIRMED, 0)]
    }

    /// A highest sequence, and some of the places.
    fn window(&mut self) -> Vec<(usize, u64)> {
        let highest = match self.rng.below(4) {
            0 => u64::MAX - 300 - self.rng.below(300) as u64,
            1 => u64::MAX,
            _ => 300 + self.rng.number() / 2,
        };
        let mut words = vec![(WINDOW, highest)];
        for _ in 0..self.rng.below(20) {
            let behind = highest.wrapping_sub(self.rng.below(260) as u64);
            let value = match self.rng.below(4) {
                0 => u64::MAX,
                1 => self.rng.number(),
                _ => behind,
            };
            words.push((WINDOW + 1 + (behind % 256) as usize, value));
        }
        words
    }

    fn pending(&mut self, server: &NetcodeServer) -> Poke {
        let waits = |at: &std::net::SocketAddr| lives::is_pending(server, *at);
        let froms = self.clients.iter().map(|client| client.from);
        let waiting: Vec<_> = froms.filter(waits).collect();
        let at = match waiting.len() {
            0 => self.clients[0].from,
            len => waiting[self.rng.below(len)],
        };
        let words = match self.rng.below(3) {
            0 => self.window(),
            _ => vec![(SEQUENCE, u64::MAX - self.rng.below(2) as u64)],
        };
        Poke::Pending { at, words }
    }

    fn entries(&mut self, server: &NetcodeServer) -> Poke {
        let secs = server.current_time().as_secs();
        Poke::Entries {
            secs: self
                .rng
                .pick(&[0, secs, secs.saturating_add(9)])
                .min(u64::MAX - 9),
            lowest: self.rng.pick(&[0, 1, 1000, 2047]),
            again: self.rng.pick(&[0, 1500, 2047]),
        }
    }

    /// A second entry for a client's token, from its address or another, and then its request: the last one decides.
    fn twin(&mut self, server: &NetcodeServer) -> Call {
        let who = self.rng.below(self.clients.len());
        let other = self.rng.below(self.clients.len());
        let data = &self.clients[who].token.data;
        let mac = data[1008..].try_into().expect("16 bytes");
        let twin = |place, from| {
            Call::Poke(Poke::Entry {
                place,
                secs: server.current_time().as_secs(),
                from,
                mac,
            })
        };
        let places = [self.rng.below(1000), 1000 + self.rng.below(1048)];
        let [first, last] = [self.clients[who].from, self.clients[other].from];
        let request = self.plain_request(who);
        self.planned.extend([twin(places[1], last), request]);
        twin(places[0], first)
    }

    /// Back or forth by less than a minute, short of the clock's last second.
    fn clock(&mut self, server: &NetcodeServer) -> Poke {
        let now = server.current_time().as_secs();
        Poke::Clock {
            secs: self.rng.near(now, 40).min(u64::MAX - 1),
            nanos: self.rng.pick(&[0, 1, 250_000_000, 999_999_999]),
        }
    }
}
