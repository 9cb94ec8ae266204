//! Set-up at its edges: servers as the Rust has them, each refusal alone, and each with each.

use ours::tables::{ENTRY_BYTES, PLACE_WORDS};

use super::edges::{put as put_server, Tried};
use super::{Server, Start};
use crate::judge::Judge;
use crate::tables::{four, six, Address, Time, LATEST, SECOND};

const HERE: Address = Address {
    kind: 4,
    bytes: [127, 0, 0, 1, 0, 0, 0, 0, 0, 0, 0, 0, 0, 0, 0, 0],
    port: 5000,
};

pub fn run(judge: &mut Judge) -> Tried {
    whole(judge)?;
    lengths(judge)?;
    addresses(judge)?;
    together(judge)
}

fn put(judge: &mut Judge, start: Start) -> Tried {
    put_server(judge, Server::Start(start))
}

/// The small server with something else.
fn small(change: impl FnOnce(&mut Start)) -> Start {
    let mut start = Start::small();
    change(&mut start);
    start
}

/// As the Rust has it, at the ends of its limit and of its clock; then with fewer places, or a lower limit.
fn whole(judge: &mut Judge) -> Tried {
    for limit in [1, 2, 3, 16, 1023, 1024] {
        put(judge, Start::whole(limit))?;
    }
    let clocks = [
        Time::new(0, 1),
        Time::new(1 << 32, SECOND - 1),
        LATEST,
        Time::new(0, SECOND),
        Time::new(u64::MAX - 1, SECOND),
        Time::new(0, u64::MAX),
    ];
    for clock in clocks {
        for secure in [false, true] {
            let mut start = Start {
                clock,
                secure,
                protocol: clock.secs ^ 7,
                public: vec![HERE, six([9; 16], 1)],
                ..Start::whole(2)
            };
            put(judge, start.clone())?;
            start.pending = PLACE_WORDS;
            put(judge, start)?;
        }
    }
    for slots in [1, 2, 1024] {
        for limit in [0, 1, slots - 1, slots] {
            put(judge, with_limit(slots, limit))?;
        }
    }
    Ok(())
}

fn with_limit(slots: u64, limit: u64) -> Start {
    small(|start| {
        start.slots = PLACE_WORDS * slots as usize;
        start.limit = limit;
    })
}

/// None, one too many, the most, no whole number, of each table; limits over the slots.
fn lengths(judge: &mut Judge) -> Tried {
    for slots in around(PLACE_WORDS, 1024) {
        for limit in [0, 1] {
            let start = small(|start| (start.slots, start.limit) = (slots, limit));
            put(judge, start)?;
        }
    }
    for pending in around(PLACE_WORDS, 4096) {
        put(judge, small(|start| start.pending = pending))?;
    }
    for entries in around(ENTRY_BYTES, 2048) {
        put(judge, small(|start| start.entries = entries))?;
    }
    for slots in [1, 2, 1024] {
        for limit in [slots + 1, 1024, 1025, 1 << 32, 1 << 63, u64::MAX] {
            put(judge, with_limit(slots, limit))?;
        }
    }
    Ok(())
}

fn around(place: usize, most: usize) -> [usize; 8] {
    [
        0,
        1,
        place - 1,
        place,
        place + 1,
        place * most,
        place * most + 1,
        place * (most + 1),
    ]
}

/// Of a kind that none is, or of kind 4 and longer.
fn malformed() -> [Address; 4] {
    let mut long = HERE;
    long.bytes[4] = 1;
    let mut last = HERE;
    last.bytes[15] = 128;
    let kind = |kind| Address { kind, ..HERE };
    [kind(0), kind(5), long, last]
}

/// Malformed ones first, between and last; words that are left over.
fn addresses(judge: &mut Judge) -> Tried {
    for many in [0, 1, 2, 3, 32] {
        let good: Vec<Address> = (0..many).map(|at| four([10, 0, 0, 1], at)).collect();
        for over in [0, 1, 2] {
            let start = small(|start| (start.public, start.over) = (good.clone(), over));
            put(judge, start)?;
        }
        for at in 0..good.len() {
            for bad in malformed() {
                let mut public = good.clone();
                public[at] = bad;
                put(judge, small(|start| start.public = public))?;
            }
        }
    }
    Ok(())
}

/// Refusals by a length with a malformed address, with a clock that has no such time, and with both.
fn together(judge: &mut Judge) -> Tried {
    let starts = [
        Start::small(),
        small(|start| start.slots = 0),
        small(|start| start.slots = PLACE_WORDS + 1),
        small(|start| start.slots = PLACE_WORDS * 1025),
        small(|start| start.pending = 0),
        small(|start| start.entries = 0),
        small(|start| start.over = 1),
        small(|start| start.limit = 2),
    ];
    for start in starts {
        for public in [vec![HERE], vec![HERE, malformed()[1]]] {
            for clock in [Time::ZERO, Time::new(u64::MAX, SECOND)] {
                let mut start = start.clone();
                (start.public, start.clock) = (public.clone(), clock);
                put(judge, start)?;
            }
        }
    }
    Ok(())
}
