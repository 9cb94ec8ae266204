//! Steps of the clock, to its edges and between, limits, and payloads to send.

use std::time::Duration;

use oracle::lives::{self, NetcodeServer};

use super::{Mood, World};
use crate::call::Call;
use crate::poke::{EXPIRY, RECEIVED, SENT, TIMEOUT};

const SECOND: u128 = 1_000_000_000;

fn step(nanos: u128) -> Call {
    Call::Update {
        secs: (nanos / SECOND) as u64,
        nanos: (nanos % SECOND) as u64,
    }
}

/// A step to the clock's last nanosecond is none: at that time no sent time is a nanosecond short of the interval and within the Rust's
/// sums, so that nothing can stand in for one that is too late.
pub fn short_of_the_last(server: &NetcodeServer, call: Call) -> Call {
    let Call::Update { secs, nanos } = call else {
        return call;
    };
    let duration = Duration::from_secs(secs).checked_add(Duration::from_nanos(nanos));
    match duration.and_then(|duration| server.current_time().checked_add(duration)) {
        Some(Duration::MAX) => step(0),
        _ => call,
    }
}

impl World {
    pub fn draw_update(&mut self, server: &NetcodeServer) -> Call {
        match self.rng.below(12) {
            0 => step(self.rng.below(3) as u128),
            1 => step(self.rng.pick(&[249_999_999, 250_000_000, 250_000_001])),
            2 => step(self.rng.below(1_000_000_000) as u128),
            3..=5 => self.step_to_timeout(server),
            6 | 7 => self.step_to_send(server),
            8 => self.step_to_expiry(server),
            9 => step(SECOND * (1 + self.rng.below(20) as u128)),
            10 => Call::Update {
                secs: 0,
                nanos: 1_500_000_000,
            },
            _ if self.mood != Mood::Small || self.rng.one_in(4) => self.too_far(server),
            _ => step(1),
        }
    }

    /// Past the clock's range by as little as can be, or by far.
    fn too_far(&mut self, server: &NetcodeServer) -> Call {
        let now = server.current_time();
        let left = u64::MAX - now.as_secs();
        match self.rng.below(3) {
            0 => Call::Update {
                secs: left,
                nanos: u64::from(1_000_000_000 - now.subsec_nanos()),
            },
            1 => Call::Update {
                secs: u64::MAX,
                nanos: u64::MAX,
            },
            _ => Call::Update {
                secs: left.saturating_add(1),
                nanos: 0,
            },
        }
    }

    /// The clock to where a stored time and some more is exactly now, a nanosecond on either side, and the client's turn at each.
    fn step_to_edge(
        &mut self,
        server: &NetcodeServer,
        id: u64,
        stored: [u64; 2],
        more: u128,
    ) -> Call {
        let at = u128::from(stored[0]) * SECOND + u128::from(stored[1]) + more;
        let now = server.current_time().as_nanos();
        if at <= now + 1 || at - now > 100 * SECOND {
            return step(1);
        }
        let turn = Call::UpdateClient { id };
        let steps = match self.rng.below(3) {
            0 => vec![at - now - 1, 1],
            1 => vec![at - now, 1],
            _ => vec![at - now + 1],
        };
        for nanos in &steps[1..] {
            self.planned.extend([turn.clone(), step(*nanos)]);
        }
        self.planned.push_back(turn);
        step(steps[0])
    }

    fn step_to_timeout(&mut self, server: &NetcodeServer) -> Call {
        let id = self.draw_id(server);
        let Some(words) = words_of(server, id) else {
            return step(1);
        };
        let timeout = (words[TIMEOUT] as u32 as i32).max(0) as u128;
        self.step_to_edge(
            server,
            id,
            [words[RECEIVED], words[RECEIVED + 1]],
            timeout * SECOND,
        )
    }

    fn step_to_send(&mut self, server: &NetcodeServer) -> Call {
        let id = self.draw_id(server);
        let Some(words) = words_of(server, id) else {
            return step(1);
        };
        self.step_to_edge(server, id, [words[SENT], words[SENT + 1]], SECOND / 4)
    }

    /// A pending client's expiry, and the second after it.
    fn step_to_expiry(&mut self, server: &NetcodeServer) -> Call {
        let now = server.current_time().as_secs();
        let froms: Vec<_> = self.clients.iter().map(|client| client.from).collect();
        let mut rows = froms
            .iter()
            .filter_map(|from| lives::pending_at(server, *from));
        let Some(row) = rows.next() else {
            return step(SECOND);
        };
        let left = row.2[EXPIRY].saturating_sub(now);
        if left > 400 {
            return step(SECOND);
        }
        if self.rng.one_in(2) {
            self.planned.push_back(step(SECOND));
        }
        step(u128::from(left) * SECOND)
    }

    pub fn draw_limit(&mut self) -> Call {
        let slots = self.start.max_clients as u64;
        let limits = [
            slots,
            slots,
            slots,
            slots - 1,
            slots + 1,
            0,
            1,
            1024,
            1025,
            u64::MAX,
        ];
        if self.mood == Mood::Small || self.rng.one_in(2) {
            // Back, so that a life does not stay with a house that is full.
            self.planned.push_back(Call::SetMaxClients(slots));
        }
        if self.rng.one_in(2) {
            let who = self.rng.below(self.clients.len());
            let token = self.clients[who].clone();
            let retry = token.sent.last().cloned().unwrap_or_default();
            let from = token.from;
            self.planned
                .push_front(Call::Datagram { from, bytes: retry });
        }
        Call::SetMaxClients(self.rng.pick(&limits))
    }

    pub fn draw_payload(&mut self, server: &NetcodeServer) -> Call {
        let id = self.draw_id(server);
        let len = match self.mood {
            Mood::Small => self.rng.pick(&[0, 1, 5, 30, 1300, 1301]),
            _ => self.rng.pick(&[0, 1, 2, 100, 1299, 1300, 1301, 1400]),
        };
        let bytes = self.rng.bytes(len);
        Call::Payload { id, bytes }
    }
}

fn words_of(server: &NetcodeServer, id: u64) -> Option<[u64; 305]> {
    let mut rows = (0..lives::slots(server)).filter_map(|slot| lives::slot(server, slot));
    rows.find(|row| row.0 == id).map(|row| row.2)
}
