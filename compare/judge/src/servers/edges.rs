//! Queries and lists at their edges.

use ours::tables::PLACE_WORDS;

use super::{clock_edges, start_edges, Fit, Public, Query, Seat, Server, What, STAGES};
use crate::case::Case;
use crate::judge::{Found, Judge};
use crate::tables::{four, six, Address, Fill, Place, Sparse, Time, LATEST, SECOND};

pub type Tried = Result<(), Found>;

pub fn run(judge: &mut Judge) -> Tried {
    clock_edges::run(judge)?;
    for places in [1, 2, 3, 16, 1024] {
        queries(judge, places)?;
    }
    unfit(judge)?;
    publics(judge)?;
    start_edges::run(judge)
}

pub fn put(judge: &mut Judge, case: Server) -> Tried {
    judge.put(Case::Server(case)).map(|_| ())
}

/// No drawn slot has its id.
const WANTED: Seat = Seat {
    mark: 1,
    id: 77,
    address: Address {
        kind: 6,
        bytes: [9; 16],
        port: 77,
    },
    received: Time::new(5, 6),
    user: 7,
};

/// At and after what `WANTED` has, with a carry and without, and before it.
const NOWS: [Time; 7] = [
    Time::new(5, 6),
    Time::new(5, 7),
    Time::new(6, 5),
    Time::new(6, 6),
    LATEST,
    Time::new(5, 5),
    Time::new(4, SECOND + 6),
];

/// Every query of a table; lists with just enough room, with more, with one place less, with none.
fn every(judge: &mut Judge, table: &Sparse<Seat>, id: u64, stage: u8, fit: Fit) -> Tried {
    let used = table.all().iter().filter(|seat| seat.mark != 0).count();
    let rooms = [used, used + 3, used.saturating_sub(1), 0];
    let mut whats = vec![What::Count, What::Is(id), What::Addr(id), What::User(id)];
    whats.extend(rooms.map(What::Ids));
    whats.extend(rooms.map(What::Slots));
    let mut query = |what, now| {
        let table = table.clone();
        put(
            judge,
            Server::Query(Query {
                table,
                now,
                what,
                stage,
                fit,
            }),
        )
    };
    for what in whats {
        query(what, Time::ZERO)?;
    }
    for now in NOWS {
        query(What::Since(id), now)?;
    }
    Ok(())
}

/// All used or all emptied, no two alike; the wanted one first, between, last, twice, or emptied.
fn queries(judge: &mut Judge, places: usize) -> Tried {
    let short = places <= 16;
    let marks: &[u64] = if short {
        &[1, 2, 1 << 63, 0]
    } else {
        &[1 << 32]
    };
    let twice = Seat {
        received: Time::new(1, 999_999_999),
        user: 8,
        address: four([1, 2, 3, 4], 5),
        ..WANTED
    };
    let ends = [0, places / 2, places - 1];
    for fill in [4, 7] {
        let table = Sparse::new(places, Fill::Drawn(fill));
        every(judge, &table, WANTED.id, 0, Fit::Fits)?;
        let last = Seat::drawn(fill, places - 1).id;
        every(judge, &table, last, 0, Fit::Fits)?;
        for (at, mark) in ends
            .iter()
            .flat_map(|at| marks.iter().map(|mark| (*at, *mark)))
        {
            let table = table.clone().with(at, Seat { mark, ..WANTED });
            every(judge, &table, WANTED.id, 0, Fit::Fits)?;
            for second in ends.iter().filter(|_| short) {
                let table = table.clone().with(*second, twice);
                every(judge, &table, WANTED.id, 0, Fit::Fits)?;
            }
        }
    }
    Ok(())
}

/// While any ask is open, and with another length.
fn unfit(judge: &mut Judge) -> Tried {
    for places in [1, 3] {
        let table = Sparse::new(places, Fill::Drawn(4)).with(places - 1, WANTED);
        let words = PLACE_WORDS * places;
        let lent = [0, words - 1, words + 1, words + PLACE_WORDS].map(Fit::Lent);
        let found = [0, places + 1, usize::MAX].map(Fit::Found);
        for fit in [Fit::Fits].into_iter().chain(lent).chain(found) {
            for stage in 0..=STAGES {
                every(judge, &table, WANTED.id, stage, fit)?;
            }
        }
    }
    // A slot more than the most, lent and found.
    let table = Sparse::new(1025, Fill::Same(WANTED));
    every(judge, &table, WANTED.id, 0, Fit::Fits)
}

fn publics(judge: &mut Judge) -> Tried {
    let each = [four([127, 0, 0, 1], 5000), six([9; 16], 1)];
    for many in [0, 1, 2, 40] {
        let public: Vec<Address> = (0..many).map(|at| each[at % 2]).collect();
        let words = 3 * many;
        let lent = [0, 1, words, words + 1, words + 2, words + 3].map(Fit::Lent);
        let found = [0, many, many + 1, usize::MAX].map(Fit::Found);
        for fit in lent.into_iter().chain(found) {
            for room in [0, words.saturating_sub(1), words, words + 5] {
                for stage in [0, 1, STAGES] {
                    let public = public.clone();
                    let case = Public {
                        public,
                        room,
                        stage,
                        fit,
                    };
                    put(judge, Server::Public(case))?;
                }
            }
        }
    }
    Ok(())
}
