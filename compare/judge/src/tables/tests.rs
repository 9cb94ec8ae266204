use super::*;
use crate::case::Case;
use crate::shrink::shrink;

fn mark(mark: u8, secs: u64) -> Mark {
    let entry = Entry {
        time: Time::new(secs, 0x0403_0201),
        address: four([127, 0, 0, 1], 0x0605),
        mac: [9; 16],
    };
    Mark { mark, entry }
}

#[test]
fn entries_are_marks_and_then_bodies() {
    let bytes = entry_bytes(&[mark(2, 1), Mark::EMPTY]);
    assert_eq!(bytes.len(), 96);
    assert_eq!(bytes[..2], [2, 0]);
    assert_eq!(bytes[2..10], 1u64.to_le_bytes());
    assert_eq!(bytes[10..14], [1, 2, 3, 4]);
    assert_eq!(bytes[14..19], [4, 127, 0, 0, 1]);
    assert_eq!(bytes[31..33], [5, 6]);
    assert_eq!(bytes[33..49], [9; 16]);
    assert_eq!(bytes[49], 0);
    let mut written = entry_bytes(&[Mark::EMPTY, Mark::EMPTY]);
    write_entry(&mut written, 0, &mark(1, 1).entry);
    assert_eq!(written, entry_bytes(&[mark(1, 1), Mark::EMPTY]));
}

#[test]
fn slots_are_marks_ids_addresses_and_then_bodies() {
    let slot = |mark| Slot {
        mark,
        id: 70 + mark,
        address: six([1; 16], 5),
    };
    let words = slot_words(&[slot(1), slot(2)]);
    assert_eq!(words.len(), 620);
    assert_eq!(words[..4], [1, 2, 71, 72]);
    let half = 0x0101_0101_0101_0101;
    assert_eq!(words[4..7], [6 * 65536 + 5, half, half]);
}

#[test]
fn a_time_is_its_whole_nanoseconds() {
    let long = Time::new(1, 2 * SECOND + 5);
    assert_eq!(Time::of_whole(long.whole()), Some(Time::new(3, 5)));
    assert_eq!(long.duration(), Some(Duration::new(3, 5)));
    assert_eq!(Time::new(u64::MAX, SECOND).duration(), None);
}

#[test]
fn a_table_loses_its_places() {
    let mut table = Sparse::new(ENTRIES, Fill::Drawn(16));
    table = table.with(3, mark(255, 80)).with(900, mark(1, 4));
    let used = mark(1, 3).entry;
    let case = Case::Entries(Entries { table, used });
    let smallest = shrink(case, |case| match case {
        Case::Entries(case) => case.table.all()[3].mark > 100 && case.used.time.secs >= 2,
        _ => false,
    });
    let least = |mark, secs| Mark {
        mark,
        entry: Entry {
            time: Time::new(secs, 0),
            ..Mark::EMPTY.entry
        },
    };
    let table = Sparse::empty(ENTRIES).with(3, least(101, 0));
    let used = least(1, 2).entry;
    assert_eq!(smallest, Case::Entries(Entries { table, used }));
}

#[test]
fn a_search_gets_shorter() {
    let wanted = Slot {
        mark: 1 << 40,
        id: 500,
        address: six([3; 16], 9),
    };
    let table = Sparse::new(300, Fill::Drawn(4)).with(200, wanted);
    let wanted = Wanted::Id(500);
    let case = Case::Slots(Slots { table, wanted });
    let smallest = shrink(case, |case| match case {
        Case::Slots(Slots { table, wanted }) => {
            let found = |slot: &Slot| slot.mark > 1 && Wanted::Id(slot.id) == *wanted;
            table.all().iter().any(found)
        }
        _ => false,
    });
    let least = Slot {
        mark: 2,
        ..Slot::EMPTY
    };
    let table = Sparse::empty(1).with(0, least);
    let wanted = Wanted::Id(0);
    assert_eq!(smallest, Case::Slots(Slots { table, wanted }));
}

#[test]
fn times_are_lowered_together() {
    let far = 1 << 40;
    let case = Case::Moment(Moment::Due {
        time: Time::new(far, 700_000_000),
        now: Time::new(far, 950_000_001),
    });
    let due = |case: &Case| match case {
        Case::Moment(moment) => moment.told() == Told::Is(true),
        _ => false,
    };
    let least = Case::Moment(Moment::Due {
        time: Time::ZERO,
        now: Time::new(0, 250_000_000),
    });
    assert_eq!(shrink(case, due), least);
}
