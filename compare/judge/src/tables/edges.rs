//! Tables at their edges.

use super::{four, six, Address, Entries, Entry, Fill, Hosts, Mark, Place, Slot, Slots, Sparse};
use super::{Time, Wanted, ENTRIES, LATEST, SECOND};
use crate::case::Case;
use crate::judge::{Found, Judge};

type Tried = Result<(), Found>;

const HERE: Address = Address {
    kind: 4,
    bytes: [127, 0, 0, 1, 0, 0, 0, 0, 0, 0, 0, 0, 0, 0, 0, 0],
    port: 5000,
};

const THERE: Address = Address { port: 1, ..HERE };

/// Each differs from `HERE` in one thing, the last in all.
fn elsewhere() -> [Address; 5] {
    [
        four([127, 0, 0, 1], 5001),
        four([127, 0, 0, 2], 5000),
        six(HERE.bytes, 5000),
        four([126, 0, 0, 1], 5000),
        six([9; 16], 77),
    ]
}

const MAC: [u8; 16] = [7; 16];
const OTHER: [u8; 16] = [6; 16];

/// The first, the second, one between, the last two.
const PLACES: [usize; 5] = [0, 1, 1000, ENTRIES - 2, ENTRIES - 1];

pub fn run(judge: &mut Judge) -> Tried {
    lowest(judge)?;
    matches(judge)?;
    empties(judge)?;
    for places in [1, 2, 3, 16, 1024, 1025, 4096] {
        slots(judge, places)?;
    }
    hosts(judge)
}

fn mark(mark: u8, time: Time, address: Address, mac: [u8; 16]) -> Mark {
    let entry = Entry { time, address, mac };
    Mark { mark, entry }
}

/// All places used by other tokens, at one time.
fn full(time: Time) -> Sparse<Mark> {
    Sparse::new(ENTRIES, Fill::Same(mark(1, time, HERE, OTHER)))
}

fn add(judge: &mut Judge, table: Sparse<Mark>, address: Address) -> Tried {
    let used = Entry {
        time: Time::new(100, 5),
        address,
        mac: MAC,
    };
    judge.put(Case::Entries(Entries { table, used }))?;
    Ok(())
}

/// Full tables: all times equal, the lowest at each place, and at two.
fn lowest(judge: &mut Judge) -> Tried {
    for time in [Time::ZERO, Time::new(5, 1), Time::new(200, 0), LATEST] {
        add(judge, full(time), HERE)?;
        for low in [Time::ZERO, Time::new(5, 0), Time::new(4, SECOND - 1)] {
            for first in PLACES {
                for second in PLACES {
                    for used in [1, 2, 255] {
                        let place = mark(used, low, HERE, OTHER);
                        let table = full(time).with(first, place).with(second, place);
                        add(judge, table, HERE)?;
                    }
                    let place = |time| mark(1, time, HERE, OTHER);
                    let next = Time::new(low.secs, low.nanos + 1);
                    let table = full(time).with(first, place(low)).with(second, place(next));
                    add(judge, table, HERE)?;
                }
            }
        }
    }
    Ok(())
}

/// One match or two, of any mark, among used places or empty ones, from the same address or another.
fn matches(judge: &mut Judge) -> Tried {
    for table in [full(Time::new(5, 0)), Sparse::empty(ENTRIES)] {
        for at in PLACES {
            for used in [0, 1, 2, 128, 255] {
                let place = |address| mark(used, Time::new(9, 0), address, MAC);
                add(judge, table.clone().with(at, place(HERE)), HERE)?;
                for other in elsewhere() {
                    add(judge, table.clone().with(at, place(other)), HERE)?;
                }
                for second in PLACES {
                    let two = |first, last| {
                        let table = table.clone().with(at, place(first));
                        table.with(second, mark(1, Time::new(1, 0), last, MAC))
                    };
                    add(judge, two(HERE, THERE), HERE)?;
                    add(judge, two(THERE, HERE), HERE)?;
                    add(judge, two(THERE, HERE), THERE)?;
                }
            }
            for byte in [0, 7, 8, 15] {
                let mut mac = MAC;
                mac[byte] ^= 0x80;
                let near = mark(1, Time::new(9, 0), HERE, mac);
                add(judge, table.clone().with(at, near), THERE)?;
            }
        }
    }
    Ok(())
}

/// An empty place, bare or with what it had kept, at each place, with a match before it or after it,
/// or with a second empty one.
fn empties(judge: &mut Judge) -> Tried {
    let kept = [
        Mark::EMPTY,
        mark(0, Time::ZERO, HERE, MAC),
        mark(0, LATEST, HERE, OTHER),
    ];
    for at in PLACES {
        for empty in kept {
            let table = full(Time::new(5, 0)).with(at, empty);
            add(judge, table.clone(), HERE)?;
            for second in PLACES {
                add(judge, table.clone().with(second, kept[1]), THERE)?;
                for used in [1, 255] {
                    let old = mark(used, Time::ZERO, HERE, OTHER);
                    add(judge, table.clone().with(second, old), HERE)?;
                    let known = mark(used, Time::new(9, 0), HERE, MAC);
                    add(judge, table.clone().with(second, known), HERE)?;
                    add(judge, table.clone().with(second, known), THERE)?;
                }
            }
        }
    }
    Ok(())
}

/// No drawn place is like it.
const WANTED: Slot = Slot {
    mark: 1,
    id: 77,
    address: HERE,
};

/// What may stand where the wanted one is, the last two also in long tables.
const MARKS: [u64; 6] = [1, 2, 255, u64::MAX, 1 << 32, 0];

fn search(judge: &mut Judge, table: Sparse<Slot>, wanted: Slot) -> Tried {
    for wanted in [
        Wanted::Address(wanted.address),
        Wanted::Id(wanted.id),
        Wanted::Free,
        Wanted::Count,
    ] {
        let table = table.clone();
        judge.put(Case::Slots(Slots { table, wanted }))?;
    }
    Ok(())
}

/// All free and none; the wanted one first, last, twice, or left in an emptied place. Long tables are
/// slow to make, and one mark says as much there.
fn slots(judge: &mut Judge, places: usize) -> Tried {
    let short = places <= 16;
    let marks: &[u64] = if short { &MARKS } else { &MARKS[4..] };
    // No two places alike, all used or all emptied with what they had kept.
    for fill in [4, 7] {
        let table = Sparse::new(places, Fill::Drawn(fill));
        search(judge, table.clone(), WANTED)?;
        search(judge, table.clone(), Slot::drawn(fill, 0))?;
        search(judge, table.clone(), Slot::drawn(fill, places - 1))?;
        for at in [0, places / 2, places - 1] {
            for mark in marks {
                let found = Slot {
                    mark: *mark,
                    ..WANTED
                };
                let table = table.clone().with(at, found);
                search(judge, table.clone(), WANTED)?;
                for second in [0, places / 2, places - 1].iter().filter(|_| short) {
                    search(judge, table.clone().with(*second, WANTED), WANTED)?;
                    search(judge, table.clone().with(*second, Slot::EMPTY), WANTED)?;
                }
            }
        }
    }
    Ok(())
}

/// Lists of none to 32, with the one that is ours first, last, or in none of them.
fn hosts(judge: &mut Judge) -> Tried {
    let mut put = |list: &[Address], ours: &[Address]| {
        let (list, ours) = (list.to_vec(), ours.to_vec());
        judge.put(Case::Hosts(Hosts { list, ours })).map(|_| ())
    };
    let others =
        |many: usize| -> Vec<Address> { (0..many).map(|at| elsewhere()[at % 5]).collect() };
    for many in [0, 1, 2, 31] {
        for known in [0, 1, 2, 40] {
            let (list, ours) = (others(many), others(known));
            put(&list, &[HERE])?;
            put(&[HERE], &ours)?;
            put(&list, &ours)?;
            let (first, last) = ([&[HERE], &list[..]].concat(), [&list[..], &[HERE]].concat());
            let ends = [[&[HERE], &ours[..]].concat(), [&ours[..], &[HERE]].concat()];
            for ours in &ends {
                put(&first, ours)?;
                put(&last, ours)?;
            }
        }
    }
    Ok(())
}
