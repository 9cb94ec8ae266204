//! Which branches of document 01 a call reached, by what the Rust was before it and after it.

use oracle::lives::{self, NetcodeServer, Row};

use crate::call::{Call, Turn};
use crate::counts::Counts;
use crate::expect::{Expected, Step};
use crate::hear::Outcome;
use crate::host::{self, Kind};
use crate::poke::{EXPIRY, RECEIVED, SENT, TIMEOUT, WINDOW};

mod steps;
mod window;

/// What was done to a server, and what came of it.
struct Case<'a> {
    turn: &'a Turn,
    expected: &'a Expected,
    pre: &'a NetcodeServer,
    post: &'a NetcodeServer,
}

pub fn count(
    turn: &Turn,
    expected: &Expected,
    pre: &NetcodeServer,
    post: &NetcodeServer,
    counts: &mut Counts,
) {
    steps::count_steps(turn, &expected.steps, counts);
    let case = Case {
        turn,
        expected,
        pre,
        post,
    };
    if let Some(counter) = expected.spent {
        counts.reach(&format!("15: {counter}"));
    }
    let mut reach = |branch: Option<&str>| {
        if let Some(branch) = branch {
            counts.reach(branch);
        }
    };
    match &turn.call {
        Call::Datagram { .. } => {
            reach(case.sender_line());
            reach(case.window_line());
            reach(case.request_line());
            reach(case.entry_line());
        }
        Call::Update { .. } => {
            reach(case.dropped_line());
            reach(case.expiry_line());
        }
        Call::UpdateClient { id } => {
            reach(case.timeout_line(*id));
            reach(case.send_line(*id));
        }
        Call::SetMaxClients(limit) => reach(Some(case.limit_line(*limit))),
        _ => {}
    }
}

enum Sender {
    Connected(Row),
    Pending(Row),
    Unknown,
}

impl Case<'_> {
    fn sender(&self) -> Sender {
        let Call::Datagram { from, .. } = &self.turn.call else {
            return Sender::Unknown;
        };
        let mut slots = (0..lives::slots(self.pre)).filter_map(|i| lives::slot(self.pre, i));
        match slots.find(|row| row.1 == *from) {
            Some(row) => Sender::Connected(row),
            None => match lives::pending_at(self.pre, *from) {
                Some(row) => Sender::Pending(row),
                None => Sender::Unknown,
            },
        }
    }

    fn kind(&self) -> Option<u8> {
        match &self.turn.call {
            Call::Datagram { bytes, .. } => bytes.first().map(|prefix| prefix & 15),
            _ => None,
        }
    }

    fn is_refused(&self) -> bool {
        matches!(self.expected.outcome, Outcome::Refused(_))
    }

    fn sender_line(&self) -> Option<&'static str> {
        if self.is_refused() {
            return None;
        }
        match (self.sender(), self.kind()?) {
            (Sender::Connected(_), kind) => Some(match kind {
                0 => "connected: a clear request sets the received time",
                4 => "connected: keep-alive",
                5 => "connected: payload",
                6 => "connected: disconnect",
                _ => "connected: denied, challenge or response, nothing",
            }),
            (Sender::Pending(_), 0) => Some("pending: request"),
            (Sender::Pending(row), 3) => self.response_line(&row),
            (Sender::Pending(_), 4..=6) => Some("pending: windowed, accepted, not handed out"),
            (Sender::Pending(_), _) => Some("pending: denied or challenge, nothing"),
            (Sender::Unknown, _) => None,
        }
    }

    fn response_line(&self, row: &Row) -> Option<&'static str> {
        match &self.expected.outcome {
            Outcome::Connected { user_data, .. } if row.2[16..48] != words_of(&user_data[..]) => {
                Some("response: connected, with the challenge's user data")
            }
            Outcome::Connected { .. } if row.2[WINDOW] > 0 => {
                Some("response: connected, the window moves with it")
            }
            Outcome::Connected { .. } => Some("response: connected"),
            Outcome::Send { .. } => Some("response: no slot free, denied"),
            _ => Some("response: the challenge's id is connected, nothing"),
        }
    }

    fn granted_token(&self) -> bool {
        let steps = &self.expected.steps;
        let asked = |step: &Step| step.words[0] == 2 && host::kind_of(&step.words) == Kind::Token;
        steps.first().is_some_and(asked)
            && !matches!(self.expected.outcome, Outcome::Refused(8 | 13))
    }

    fn request_line(&self) -> Option<&'static str> {
        let Call::Datagram { from, .. } = &self.turn.call else {
            return None;
        };
        if !self.granted_token() {
            return None;
        }
        let pending = lives::is_pending(self.pre, *from);
        let full = lives::pending_count(self.pre) >= 4096;
        let denied = self.expected.steps.iter().any(|step| {
            step.packet
                .as_ref()
                .is_some_and(|packet| packet[0] & 15 == 1)
        });
        Some(match &self.expected.outcome {
            Outcome::Nothing if full && !pending => "request: no pending place free, nothing",
            Outcome::Nothing if !self.knows_mac() => "request: the id is connected, nothing",
            Outcome::Nothing => "request: nothing, its token used before",
            _ if denied && pending => "request: full, pending dropped, denied",
            _ if denied => "request: full, denied",
            Outcome::Send { .. } if full => "request: challenge, pending though no place is free",
            Outcome::Send { .. } if pending => "request: challenge, pending keeps keys and id",
            Outcome::Send { .. } => "request: challenge, a new pending entry",
            _ => return None,
        })
    }

    fn mac(&self) -> Option<[u8; 16]> {
        match &self.turn.call {
            Call::Datagram { bytes, .. } => bytes.get(1062..1078)?.try_into().ok(),
            _ => None,
        }
    }

    fn knows_mac(&self) -> bool {
        let Some(mac) = self.mac() else {
            return false;
        };
        lives::entries(self.pre)
            .flatten()
            .any(|entry| entry.2 == mac)
    }

    fn has_twins(&self, mac: &[u8; 16]) -> bool {
        let entries = lives::entries(self.pre).flatten();
        entries.filter(|entry| entry.2 == *mac).count() > 1
    }

    fn twin_line(&self, mac: &[u8; 16]) -> Option<&'static str> {
        let Call::Datagram { from, .. } = &self.turn.call else {
            return None;
        };
        let entries = lives::entries(self.pre).flatten();
        let last = entries.filter(|entry| entry.2 == *mac).last()?;
        match &self.expected.outcome {
            Outcome::Nothing if last.1 != *from => {
                Some("entries: two with these bytes, the last of another address")
            }
            Outcome::Send { .. } if last.1 == *from => {
                Some("entries: two with these bytes, the last of this address")
            }
            _ => None,
        }
    }

    fn entry_line(&self) -> Option<&'static str> {
        if !self.granted_token() {
            return None;
        }
        let used = |server| lives::entries(server).flatten().count();
        let mac = self.mac()?;
        let has = |server| lives::entries(server).flatten().any(|entry| entry.2 == mac);
        let written = has(self.post) && !has(self.pre);
        match (written, used(self.pre), used(self.post)) {
            _ if self.has_twins(&mac) => self.twin_line(&mac),
            (true, before, after) if after > before => Some("entries: the first empty place"),
            (true, ..) => Some("entries: the first with the lowest time replaced"),
            (false, ..) if !has(self.pre) => None,
            _ if matches!(self.expected.outcome, Outcome::Nothing) => {
                Some("entries: known, or of another address, none written")
            }
            _ => Some("entries: a match from its address, none written"),
        }
    }

    fn dropped_line(&self) -> Option<&'static str> {
        let gone = lives::pending_count(self.pre) > lives::pending_count(self.post);
        gone.then_some("clock: pending dropped, seconds past its expiry")
    }

    fn expiry_line(&self) -> Option<&'static str> {
        let now = self.post.current_time().as_secs();
        let at = |address| lives::pending_at(self.post, address);
        let mut rows = lives::pending_addresses(self.post).filter_map(at).take(8);
        let stays = rows.any(|row| row.2[EXPIRY] == now);
        stays.then_some("clock: pending stays, seconds at its expiry")
    }

    fn slot_of(&self, id: u64) -> Option<Row> {
        let mut rows = (0..lives::slots(self.pre)).filter_map(|i| lives::slot(self.pre, i));
        rows.find(|row| row.0 == id)
    }

    /// Nanoseconds from a stored time to now.
    fn since(&self, row: &Row, at: usize) -> i128 {
        let now = self.pre.current_time();
        let then = i128::from(row.2[at]) * 1_000_000_000 + i128::from(row.2[at + 1]);
        now.as_nanos() as i128 - then
    }

    fn timeout_line(&self, id: u64) -> Option<&'static str> {
        let row = self.slot_of(id)?;
        let timeout = row.2[TIMEOUT] as u32 as i32;
        let over = self.since(&row, RECEIVED) - i128::from(timeout) * 1_000_000_000;
        match (timeout, over) {
            (0, 1_000_000_001..) => Some("timeout: 0, never"),
            (..=-1, 1_000_000_000..) => Some("timeout: below 0, never"),
            (1.., 0) => Some("timeout: exactly, stays"),
            (1.., 1) => Some("timeout: one nanosecond over, ended"),
            (1.., 2..) => Some("timeout: over, ended"),
            _ => None,
        }
    }

    fn send_line(&self, id: u64) -> Option<&'static str> {
        let row = self.slot_of(id)?;
        if matches!(self.expected.outcome, Outcome::Ended { .. }) {
            return None;
        }
        match self.since(&row, SENT) - 250_000_000 {
            0 => Some("keep-alive: at 250 ms, sent"),
            -1 => Some("keep-alive: a nanosecond before 250 ms, none"),
            1.. => Some("keep-alive: after 250 ms, sent"),
            _ => Some("keep-alive: before 250 ms, none"),
        }
    }

    fn limit_line(&self, limit: u64) -> &'static str {
        match limit {
            0 => "limit: 0",
            1025.. => "limit: capped at 1,024",
            _ if limit as usize > lives::slots(self.pre) => "limit: over the slots",
            _ => "limit: within the slots",
        }
    }
}

fn words_of(bytes: &[u8]) -> Vec<u64> {
    let eight = |eight: &[u8]| u64::from_le_bytes(eight.try_into().expect("eight bytes"));
    bytes.chunks(8).map(eight).collect()
}
