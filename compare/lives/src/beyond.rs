//! Where document 01's domain ends: what ours has to say there, and what the Rust does.

use std::net::SocketAddr;
use std::time::Duration;

use oracle::lives::{self, NetcodeServer};

use crate::call::Call;
use crate::hear::{hear, whole, Ask, Heard};
use crate::poke::{RECEIVED, SENT, SEQUENCE, TIMEOUT};

const LAST: u64 = u64::MAX - 256;

fn is_known(server: &NetcodeServer, from: SocketAddr) -> bool {
    let connected = |slot| lives::slot(server, slot).is_some_and(|row| row.1 == from);
    lives::pending_at(server, from).is_some() || (0..lives::slots(server)).any(connected)
}

/// What the Rust does with a call that ours refuses, on a copy.
fn seen(pre: &NetcodeServer, call: &Call) -> String {
    let mut server = lives::copy(pre);
    match hear(&mut server, call, None).outcome {
        None => "panics".into(),
        Some(outcome) => {
            let text = format!("{outcome:?}");
            let end = text.find([' ', '(']).unwrap_or(text.len());
            let wraps = if wraps(pre, &server) {
                ", and the counter wraps to 0"
            } else {
                ""
            };
            format!("answers {}{wraps}", &text[..end])
        }
    }
}

/// Whether a counter that was at its end is at 0: one of the server's, a slot's, or that of a client who was pending.
fn wraps(pre: &NetcodeServer, post: &NetcodeServer) -> bool {
    let own = lives::counters(pre).into_iter().zip(lives::counters(post));
    let row_wraps = |slot: usize| {
        let Some((_, from, words)) = lives::slot(post, slot) else {
            return false;
        };
        let before = lives::slot(pre, slot).or_else(|| lives::pending_at(pre, from));
        words[SEQUENCE] == 0 && before.is_some_and(|row| row.2[SEQUENCE] == u64::MAX)
    };
    own.into_iter().any(|counter| counter == (u64::MAX, 0))
        || (0..lives::slots(post)).any(row_wraps)
}

/// 20, 4 and 5, which are told from the call and the tables alone.
pub fn before(server: &NetcodeServer, call: &Call) -> Option<(u8, String)> {
    let number = match call {
        Call::Update { secs, nanos } => {
            let step = whole(*secs, *nanos);
            let Some(step) = step else {
                return Some((20, "20: has no such step".into()));
            };
            server.current_time().checked_add(step).map_or(20, |_| 0)
        }
        Call::Datagram { from, bytes } => head_number(bytes, || is_known(server, *from)),
        _ => 0,
    };
    (number != 0).then(|| (number, format!("{number}: {}", seen(server, call))))
}

fn head_number(bytes: &[u8], known: impl FnOnce() -> bool) -> u8 {
    let Some((kind, count)) = sealed_head(bytes) else {
        return 0;
    };
    if count > 8 {
        return if known() { 4 } else { 0 };
    }
    let mut sequence = [0; 8];
    sequence[..count].copy_from_slice(&bytes[1..1 + count]);
    let high = u64::from_le_bytes(sequence) > LAST;
    if kind >= 4 && high && known() {
        5
    } else {
        0
    }
}

/// Type and count of sequence bytes of a packet that is no request and of a known type.
fn sealed_head(bytes: &[u8]) -> Option<(u8, usize)> {
    if bytes.len() < 18 {
        return None;
    }
    let (kind, count) = (bytes[0] & 15, usize::from(bytes[0] >> 4));
    (1..=6).contains(&kind).then_some((kind, count))
}

/// 7: the Rust panics where it comes to open under 16 bytes.
pub fn short(server: &NetcodeServer, call: &Call, heard: &Heard) -> Option<u8> {
    let Call::Datagram { from, bytes } = call else {
        return None;
    };
    let (_, count) = sealed_head(bytes)?;
    let short = bytes.len() < 1 + count + 16;
    (short && heard.outcome.is_none() && is_known(server, *from)).then_some(7)
}

/// The ask that comes too late, where a counter is spent: the seal that would use it, of a challenge the token's.
pub fn spent(pre: &NetcodeServer, asks: &[Ask]) -> Option<usize> {
    let challenge = lives::counters(pre)[1];
    let token = |ask: &Ask| ask.asked.seal && ask.asked.additional.is_empty();
    let last = |ask: &Ask| ask.asked.seal && ask.asked.nonce[4..] == [0xFF; 8];
    asks.iter().enumerate().position(|(at, ask)| {
        if token(ask) {
            return challenge == u64::MAX || asks.get(at + 1).is_some_and(last);
        }
        last(ask)
    })
}

/// What the Rust would have done where ours gives 15, or exact sums that the Rust does not have.
pub fn sort(
    pre: &NetcodeServer,
    call: &Call,
    tamed: &Tamed,
    counter: Option<&str>,
) -> Option<String> {
    if let Some(counter) = counter {
        return Some(format!("15, {counter}: {}", seen(pre, call)));
    }
    tamed
        .has_late_times()
        .then(|| format!("a sum past the clock's range: {}", seen(pre, call)))
}

/// Whose counter it is that the first seal too late would use.
pub fn counter_of(pre: &NetcodeServer, call: &Call, ask: &Ask) -> &'static str {
    let additional = &ask.asked.additional;
    match call {
        Call::Datagram { .. } if additional.is_empty() && lives::counters(pre)[1] == u64::MAX => {
            "the challenge counter"
        }
        Call::Datagram { .. } if additional.last().is_some_and(|prefix| prefix & 15 == 4) => {
            "a pending client's counter"
        }
        Call::Datagram { .. } if additional.last().is_some_and(|prefix| prefix & 15 == 1) => {
            "the global counter, for a denied"
        }
        Call::Datagram { .. } => "the global counter, for a challenge",
        _ => "a slot's counter",
    }
}

/// What the Rust cannot count with, taken out of a copy before a call and put back after it: a spent challenge counter, and times so
/// late that a sum with them overflows. Such a sum is past no clock, as is that of the time which stands in while the call runs.
pub struct Tamed {
    challenge: bool,
    late: Option<Late>,
}

/// A slot's times that are too late: where in its words, what stands there, and what stands in.
struct Late {
    slot: usize,
    times: Vec<(usize, [u64; 2], [u64; 2])>,
}

impl Tamed {
    pub fn of(pre: &NetcodeServer, call: &Call) -> Self {
        let late = match call {
            Call::UpdateClient { id } => late_times(pre, *id),
            _ => None,
        };
        Self {
            challenge: lives::counters(pre)[1] == u64::MAX,
            late,
        }
    }

    fn has_late_times(&self) -> bool {
        self.late.is_some()
    }

    pub fn tame(&self, server: &mut NetcodeServer) {
        if self.challenge {
            let [global, _] = lives::counters(server);
            lives::put_counters(server, [global, 0]);
        }
        if let Some(late) = &self.late {
            let times = late.times.iter().map(|(at, _, instead)| (*at, *instead));
            put_times(server, late.slot, times);
        }
    }

    pub fn restore(&self, server: &mut NetcodeServer) {
        if self.challenge {
            let [global, _] = lives::counters(server);
            lives::put_counters(server, [global, u64::MAX]);
        }
        if let Some(late) = &self.late {
            let times = late.times.iter().map(|(at, stored, _)| (*at, *stored));
            put_times(server, late.slot, times);
        }
    }
}

fn put_times(
    server: &mut NetcodeServer,
    slot: usize,
    times: impl Iterator<Item = (usize, [u64; 2])>,
) {
    let Some(mut row) = lives::slot(server, slot) else {
        return;
    };
    for (at, time) in times {
        row.2[at..at + 2].copy_from_slice(&time);
    }
    lives::put_slot(server, slot, Some(&row));
}

fn words_of(time: Duration) -> [u64; 2] {
    [time.as_secs(), u64::from(time.subsec_nanos())]
}

/// The slot of an id, where one of its times is too late for the Rust's sums. A received time that is a whole timeout ago is not
/// past, a sent time a nanosecond short of the interval not due.
fn late_times(server: &NetcodeServer, id: u64) -> Option<Late> {
    let row = |slot: &usize| lives::slot(server, *slot);
    let slot = (0..lives::slots(server)).find(|slot| row(slot).is_some_and(|row| row.0 == id))?;
    let words = row(&slot)?.2;
    let now = server.current_time();
    let timeout = Duration::from_secs((words[TIMEOUT] as u32 as i32).max(0) as u64);
    let interval = Duration::from_millis(250);
    let sums = [
        (RECEIVED, timeout, now.saturating_sub(timeout)),
        (
            SENT,
            interval,
            now.saturating_sub(interval - Duration::from_nanos(1)),
        ),
    ];
    let late = |(at, more, instead): (usize, Duration, Duration)| {
        let stored = Duration::new(words[at], words[at + 1] as u32);
        let is_late = stored.checked_add(more).is_none();
        is_late.then(|| (at, words_of(stored), words_of(instead)))
    };
    let times: Vec<_> = sums.into_iter().filter_map(late).collect();
    (!times.is_empty()).then_some(Late { slot, times })
}
