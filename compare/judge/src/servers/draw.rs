//! Drawn cases of a whole server.

use ours::tables::{ENTRY_BYTES, PLACE_WORDS};

use super::{Fit, Limit, Public, Query, Seat, Server, Start, Update, Waiting, What, STAGES};
use crate::case::Case;
use crate::rng::Rng;
use crate::tables::{drawn_time, few_addresses, few_ids, malformed, used_mark};
use crate::tables::{Address, Fill, Place, Sparse, Time, LATEST, SECOND};

pub fn case(rng: &mut Rng) -> Case {
    Case::Server(match rng.below(100) {
        0..40 => Server::Update(update(rng)),
        40..45 => Server::Limit(limit(rng)),
        45..90 => Server::Query(query(rng)),
        90..95 => Server::Public(public(rng)),
        _ => Server::Start(start(rng)),
    })
}

/// Mostly none is open.
fn stage(rng: &mut Rng) -> u8 {
    match rng.below(8) {
        0 => 1 + rng.below(STAGES.into()) as u8,
        _ => 0,
    }
}

fn fit(rng: &mut Rng, places: usize, place: usize) -> Fit {
    let words = place * places;
    match rng.below(40) {
        0 => Fit::Lent(rng.below(2 * words + 2)),
        1 => Fit::Lent(rng.near(words as u64, 2) as usize),
        2 => Fit::Found(rng.near(places as u64, 2) as usize),
        3 => Fit::Found(rng.number() as usize),
        _ => Fit::Fits,
    }
}

/// Any time, mostly one that a clock has.
fn time(rng: &mut Rng) -> Time {
    let sort = rng.next() % 4;
    let time = drawn_time(rng, sort);
    match rng.below(20) {
        0 => Time::new(time.secs, rng.number()),
        1 => Time::new(time.secs, rng.near(SECOND, 2)),
        2 => LATEST,
        _ => time,
    }
}

/// A clock around 100 s, or two times of any sort.
fn clocks(rng: &mut Rng) -> (Time, Time) {
    if rng.one_in(4) {
        return (time(rng), time(rng));
    }
    let whole = u128::from(97 * SECOND + rng.next() % (6 * SECOND));
    let sum = match rng.below(4) {
        0 => u128::from(SECOND) * (whole / u128::from(SECOND)),
        1 => LATEST.whole() - whole,
        _ => whole,
    };
    let step = match rng.below(4) {
        0 => 0,
        1 => rng.next() % 3,
        2 => rng.next() % SECOND,
        _ => rng.next() % (90 * SECOND),
    };
    let at = |whole| Time::of_whole(whole).expect("in the clock's range");
    (at(sum - u128::from(step)), at(u128::from(step)))
}

/// Expiries around the seconds that the clock is to show.
fn update(rng: &mut Rng) -> Update {
    let (clock, step) = clocks(rng);
    let places = match rng.below(4000) {
        0 => 4096,
        1..10 => 1 + rng.below(300),
        _ => 1 + rng.below(16),
    };
    let table = Sparse::new(places, Fill::Drawn(rng.next()));
    let mut update = Update::plain(table, clock, step);
    let secs = update.after().unwrap_or(clock).secs;
    for _ in 0..rng.below(2 * places.min(16)) {
        let waiting = Waiting {
            mark: if rng.one_in(6) { 0 } else { used_mark(rng) },
            expiry: rng.near(secs, 2),
        };
        update.table.named.insert(rng.below(places), waiting);
    }
    update.stage = stage(rng);
    update.fit = fit(rng, places, PLACE_WORDS);
    update
}

fn limit(rng: &mut Rng) -> Limit {
    let mut limit = || match rng.below(3) {
        0 => rng.number(),
        1 => rng.near(1024, 3),
        _ => rng.next() % 1200,
    };
    let (before, to) = (limit(), limit());
    let stage = stage(rng);
    Limit { before, to, stage }
}

fn query(rng: &mut Rng) -> Query {
    let places = match rng.below(4000) {
        0 => 1 + rng.below(1024),
        1..10 => 1 + rng.below(64),
        _ => 1 + rng.below(12),
    };
    let mut table = Sparse::new(places, Fill::Drawn(rng.next()));
    for _ in 0..rng.below(4) {
        let at = rng.below(places);
        table.named.insert(at, Seat::drawn(rng.next(), at));
    }
    let one = table.all()[rng.below(places)];
    let id = if rng.one_in(4) { few_ids(rng) } else { one.id };
    let used = table.all().iter().filter(|seat| seat.mark != 0).count();
    let room = match rng.below(4) {
        0 => used,
        _ => rng.below(2 * used + 2),
    };
    let what = match rng.below(8) {
        0 => What::Count,
        1 => What::Ids(room),
        2 => What::Slots(room),
        3 => What::Is(id),
        4 => What::Addr(id),
        5 => What::User(id),
        _ => What::Since(id),
    };
    let now = match rng.below(4) {
        0 => time(rng),
        1 => one.received,
        _ => {
            let gone = u128::from(rng.next() % (4 * SECOND));
            Time::of_whole(one.received.whole() + gone).unwrap_or(LATEST)
        }
    };
    let stage = stage(rng);
    let fit = fit(rng, places, PLACE_WORDS);
    Query {
        table,
        now,
        what,
        stage,
        fit,
    }
}

fn some(rng: &mut Rng) -> Vec<Address> {
    let many = rng.mostly_below(4, 8, 40);
    (0..many).map(|_| few_addresses(rng)).collect()
}

fn public(rng: &mut Rng) -> Public {
    let public = some(rng);
    let words = 3 * public.len();
    let room = match rng.below(3) {
        0 => words,
        _ => rng.below(2 * words + 3),
    };
    let stage = stage(rng);
    let fit = fit(rng, public.len(), 3);
    Public {
        public,
        room,
        stage,
        fit,
    }
}

/// Mostly a server that can be set up; some as the Rust has it, which are slow to make.
fn start(rng: &mut Rng) -> Start {
    let limit = 1 + rng.mostly_below(8, 10, 1024);
    let mut start = Start {
        public: some(rng),
        clock: time(rng),
        secure: rng.one_in(2),
        protocol: rng.number(),
        ..Start::whole(limit)
    };
    if rng.one_in(10) {
        return start;
    }
    start.pending = PLACE_WORDS * (1 + rng.mostly_below(8, 100, 4096));
    start.entries = ENTRY_BYTES * (1 + rng.mostly_below(8, 10, 2048));
    for _ in 0..rng.below(3) {
        match rng.below(10) {
            0 => start.limit = rng.near(start.limit, 2),
            1 => start.limit = rng.number(),
            2 => start.slots = rng.near(start.slots as u64, 2) as usize,
            3 => start.slots = rng.pick(&[0, PLACE_WORDS * 1025]),
            4 => start.pending = rng.near(start.pending as u64, 2) as usize,
            5 => start.pending = rng.pick(&[0, 0, 0, PLACE_WORDS * 4097]),
            6 => start.entries = rng.pick(&[0, start.entries + 1, ENTRY_BYTES * 2049]),
            7 => start.over = 1 + rng.below(2),
            8 => start.clock = Time::new(u64::MAX - rng.next() % 2, rng.near(SECOND, 2)),
            _ => start.public.push(malformed(rng)),
        }
    }
    start
}
