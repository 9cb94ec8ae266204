//! Smaller cases of a whole server.

use ours::tables::{ENTRY_BYTES, PLACE_WORDS};

use super::{Fit, Limit, Public, Query, Server, Start, Update, What};
use crate::shrink::numbers;
use crate::tables::{fewer, simpler_times, Time};

pub fn simpler(case: &Server) -> Vec<Server> {
    let mut tries: Vec<Server> = match case {
        Server::Update(case) => updates(case).into_iter().map(Server::Update).collect(),
        Server::Limit(case) => limits(case).into_iter().map(Server::Limit).collect(),
        Server::Query(case) => queries(case).into_iter().map(Server::Query).collect(),
        Server::Public(case) => publics(case).into_iter().map(Server::Public).collect(),
        Server::Start(case) => starts(case).into_iter().map(Server::Start).collect(),
    };
    tries.retain(|less| less != case);
    tries
}

fn stages(stage: u8) -> impl Iterator<Item = u8> {
    numbers(stage.into()).map(|stage| stage as u8)
}

fn fits(fit: Fit) -> Vec<Fit> {
    let len = |len: usize| numbers(len as u64).map(|len| len as usize);
    match fit {
        Fit::Fits => Vec::new(),
        Fit::Lent(words) => [Fit::Fits]
            .into_iter()
            .chain(len(words).map(Fit::Lent))
            .collect(),
        Fit::Found(found) => [Fit::Fits]
            .into_iter()
            .chain(len(found).map(Fit::Found))
            .collect(),
    }
}

fn updates(case: &Update) -> Vec<Update> {
    let mut tries = Vec::new();
    let mut with = |change: &dyn Fn(&mut Update)| {
        let mut less = case.clone();
        change(&mut less);
        tries.push(less);
    };
    for stage in stages(case.stage) {
        with(&|less| less.stage = stage);
    }
    for fit in fits(case.fit) {
        with(&|less| less.fit = fit);
    }
    for table in case.table.shorter().into_iter().chain(case.table.simpler()) {
        with(&|less| less.table = table.clone());
    }
    // The clock and all that expires lowered together.
    for secs in numbers(case.clock.secs) {
        let by = case.clock.secs - secs;
        with(&|less| {
            less.clock.secs = secs;
            less.table
                .change(|place| place.expiry = place.expiry.saturating_sub(by));
        });
    }
    if let Some(after) = case.after() {
        with(&|less| (less.clock, less.step) = (after, Time::ZERO));
    }
    with(&|less| less.step = Time::ZERO);
    for clock in simpler_times(case.clock) {
        with(&|less| less.clock = clock);
    }
    for step in simpler_times(case.step) {
        with(&|less| less.step = step);
    }
    tries
}

fn limits(case: &Limit) -> Vec<Limit> {
    let mut tries: Vec<Limit> = stages(case.stage)
        .map(|stage| Limit { stage, ..*case })
        .collect();
    tries.extend(numbers(case.before).map(|before| Limit { before, ..*case }));
    tries.extend(numbers(case.to).map(|to| Limit { to, ..*case }));
    tries
}

fn queries(case: &Query) -> Vec<Query> {
    let mut tries = Vec::new();
    let mut with = |change: &dyn Fn(&mut Query)| {
        let mut less = case.clone();
        change(&mut less);
        tries.push(less);
    };
    for stage in stages(case.stage) {
        with(&|less| less.stage = stage);
    }
    for fit in fits(case.fit) {
        with(&|less| less.fit = fit);
    }
    for table in case.table.shorter().into_iter().chain(case.table.simpler()) {
        with(&|less| less.table = table.clone());
    }
    if let What::Ids(room) | What::Slots(room) = case.what {
        for room in numbers(room as u64).map(|room| room as usize) {
            with(&|less| {
                less.what = match less.what {
                    What::Ids(_) => What::Ids(room),
                    _ => What::Slots(room),
                };
            });
        }
    }
    if let Some(id) = case.what.id() {
        for lower in numbers(id) {
            with(&|less| {
                less.what = less.what.with_id(lower);
                less.table.change(|seat| {
                    seat.id = if seat.id == id { lower } else { seat.id };
                });
            });
        }
    }
    for now in simpler_times(case.now) {
        with(&|less| less.now = now);
        let by = case.now.secs - now.secs.min(case.now.secs);
        with(&|less| {
            less.now = now;
            less.table
                .change(|seat| seat.received.secs = seat.received.secs.saturating_sub(by));
        });
    }
    tries
}

fn publics(case: &Public) -> Vec<Public> {
    let with = |change: &dyn Fn(&mut Public)| {
        let mut less = case.clone();
        change(&mut less);
        less
    };
    let mut tries: Vec<Public> = Vec::new();
    tries.extend(stages(case.stage).map(|stage| with(&|less| less.stage = stage)));
    tries.extend(
        fits(case.fit)
            .into_iter()
            .map(|fit| with(&|less| less.fit = fit)),
    );
    tries.extend(
        fewer(&case.public)
            .into_iter()
            .map(|public| with(&|less| less.public = public.clone())),
    );
    tries.extend(numbers(case.room as u64).map(|room| with(&|less| less.room = room as usize)));
    tries
}

/// Shorter lengths, whole ones first.
fn lengths(len: usize, place: usize) -> Vec<usize> {
    let whole = len / place * place;
    let half = len / place / 2 * place;
    let tries = [
        0,
        place,
        half,
        whole,
        len.saturating_sub(place),
        len.saturating_sub(1),
    ];
    tries.into_iter().filter(|shorter| *shorter < len).collect()
}

fn starts(case: &Start) -> Vec<Start> {
    let mut tries = Vec::new();
    let mut with = |change: &dyn Fn(&mut Start)| {
        let mut less = case.clone();
        change(&mut less);
        tries.push(less);
    };
    for pending in lengths(case.pending, PLACE_WORDS) {
        with(&|less| less.pending = pending);
    }
    for entries in lengths(case.entries, ENTRY_BYTES) {
        with(&|less| less.entries = entries);
    }
    for slots in lengths(case.slots, PLACE_WORDS) {
        // With as many clients, where there is one to each slot.
        with(&|less| {
            less.slots = slots;
            less.limit = less.limit.min((slots / PLACE_WORDS) as u64);
        });
        with(&|less| less.slots = slots);
    }
    for limit in numbers(case.limit) {
        with(&|less| less.limit = limit);
    }
    for public in fewer(&case.public) {
        with(&|less| less.public = public.clone());
    }
    for over in numbers(case.over as u64) {
        with(&|less| less.over = over as usize);
    }
    for clock in simpler_times(case.clock) {
        with(&|less| less.clock = clock);
    }
    with(&|less| less.secure = false);
    for protocol in numbers(case.protocol) {
        with(&|less| less.protocol = protocol);
    }
    tries
}
