//! The rows that a run must reach on both sides.

use crate::case::Call;
use crate::check::servers::{queries, starts, updates};
use crate::check::{entries, moments, slots, Did};
use crate::servers::Lack;
use crate::table::Row;

const ALL: &[u8] = &[0, 1, 2, 3, 4, 5, 6];
const SEALED: &[u8] = &[1, 2, 3, 4, 5, 6];
const WINDOWED: &[u8] = &[4, 5, 6];

/// The refusals of packets, each with the types that can have it.
const REFUSALS: [(Call, u8, &[u8]); 10] = [
    (Call::Decode, 3, SEALED),
    (Call::Decode, 4, SEALED),
    (Call::Decode, 5, WINDOWED),
    (Call::Decode, 6, WINDOWED),
    (Call::Decode, 7, SEALED),
    (Call::Decode, 8, SEALED),
    (Call::Decode, 9, &[0, 2, 3, 4]),
    (Call::Encode, 3, SEALED),
    (Call::Encode, 14, ALL),
    (Call::Encode, 24, SEALED),
];

/// The refusals that have no type.
const UNTYPED: [(Call, u8); 8] = [
    (Call::Decode, 1),
    (Call::Decode, 2),
    (Call::Sequence, 4),
    (Call::Sequence, 7),
    (Call::Window, 5),
    (Call::Window, 6),
    (Call::Challenge, 24),
    (Call::Proof, 8),
];

const PLAIN: [Call; 8] = [
    Call::Prefix,
    Call::Unprefix,
    Call::Sequence,
    Call::Additional,
    Call::Private,
    Call::Window,
    Call::Challenge,
    Call::Proof,
];

const MATCHES: &[u8] = &[entries::ONE_MATCH, entries::LAST_MATCH];
const WRITTEN: &[u8] = &[entries::EMPTY_PLACE, entries::LOWEST, entries::FIRST_LOWEST];
const PLACES: &[u8] = &[slots::AT_FIRST, slots::BETWEEN, slots::AT_LAST];
const COUNTS: &[u8] = &[slots::NONE_USED, slots::SOME_USED, slots::ALL_USED];
const EARLIER: &[u8] = &[moments::NEXT, moments::APART];
const UP_TO: &[u8] = &[moments::SAME, moments::NEXT, moments::APART];
const SUMS: &[u8] = &[moments::PLAIN, moments::CARRIED];

/// The answers of the tables' calls, each with its sorts.
const TABLES: [(Call, Did, &[u8]); 15] = [
    (Call::Entry, Did::Done, MATCHES),
    (Call::Entry, Did::Done, WRITTEN),
    (Call::Entry, Did::No, MATCHES),
    (Call::ByAddress, Did::Done, PLACES),
    (Call::ById, Did::Done, PLACES),
    (Call::Free, Did::Done, PLACES),
    (Call::Count, Did::Done, COUNTS),
    (Call::Add, Did::Done, SUMS),
    (Call::Before, Did::Done, EARLIER),
    (Call::Before, Did::No, UP_TO),
    (Call::Past, Did::Done, EARLIER),
    (Call::Past, Did::No, UP_TO),
    (Call::Due, Did::Done, UP_TO),
    (Call::Due, Did::No, EARLIER),
    (
        Call::Since,
        Did::Done,
        &[moments::SAME, moments::PLAIN, moments::CARRIED],
    ),
];

/// The answers of the tables' calls that have no sorts.
const UNSORTED: [(Call, Did); 6] = [
    (Call::ByAddress, Did::No),
    (Call::ById, Did::No),
    (Call::Free, Did::No),
    (Call::Hosts, Did::Done),
    (Call::Hosts, Did::No),
    (Call::Add, Did::Refused(20)),
];

const FOUND: &[u8] = &[
    queries::AT_FIRST,
    queries::BETWEEN,
    queries::AT_LAST,
    queries::LOWER,
    queries::DURING,
];
const HEARD: &[u8] = &[
    queries::JUST_NOW,
    queries::PLAIN,
    queries::CARRIED,
    queries::LOWER,
    queries::DURING,
];
const LISTED: &[u8] = &[
    queries::NONE_USED,
    queries::SOME_USED,
    queries::ALL_USED,
    queries::DURING,
];
const PUBLIC: &[u8] = &[queries::NONE_USED, queries::SOME_USED, queries::DURING];
const EMPTIED: &[u8] = &[queries::EMPTIED];
const EXPIRED: &[u8] = &[
    updates::NONE_PENDING,
    updates::ALL_STAY,
    updates::SOME_GO,
    updates::ALL_GO,
    updates::AT_THE_TURN,
    updates::CARRY + updates::NONE_PENDING,
    updates::CARRY + updates::ALL_STAY,
    updates::CARRY + updates::SOME_GO,
    updates::CARRY + updates::ALL_GO,
    updates::CARRY + updates::AT_THE_TURN,
];
const LIMITS: &[u8] = &[
    updates::ZERO,
    updates::BELOW,
    updates::AT_MOST,
    updates::CAPPED,
];
const UNFIT: &[u8] = &[
    starts::lacking(Lack::NoSlots),
    starts::lacking(Lack::ManySlots),
    starts::lacking(Lack::PartSlots),
    starts::lacking(Lack::NoPending),
    starts::lacking(Lack::ManyPending),
    starts::lacking(Lack::PartPending),
    starts::lacking(Lack::NoEntries),
    starts::lacking(Lack::ManyEntries),
    starts::lacking(Lack::PartEntries),
    starts::lacking(Lack::PartAddress),
    starts::lacking(Lack::OverLimit),
    starts::BEFORE_19,
    starts::BEFORE_20,
    starts::BEFORE_BOTH,
];
const MALFORMED: &[u8] = &[starts::lacking(Lack::Malformed), starts::BEFORE_20];
const CLOCK_END: &[u8] = &[starts::lacking(Lack::ClockEnd)];

/// The answers of a whole server's calls, each with its sorts.
const SERVERS: [(Call, Did, &[u8]); 18] = [
    (Call::Update, Did::Done, EXPIRED),
    (Call::Limit, Did::Done, LIMITS),
    (Call::SetUp, Did::Done, &[starts::OPEN, starts::SECURE]),
    (Call::SetUp, Did::Refused(23), UNFIT),
    (Call::SetUp, Did::Refused(19), MALFORMED),
    (Call::SetUp, Did::Refused(20), CLOCK_END),
    (Call::Connected, Did::Done, LISTED),
    (Call::ClientsId, Did::Done, LISTED),
    (Call::ClientsSlot, Did::Done, LISTED),
    (Call::Addresses, Did::Done, PUBLIC),
    (Call::IsConnected, Did::Done, FOUND),
    (Call::IsConnected, Did::No, EMPTIED),
    (Call::ClientAddr, Did::Done, FOUND),
    (Call::ClientAddr, Did::No, EMPTIED),
    (Call::UserData, Did::Done, FOUND),
    (Call::UserData, Did::No, EMPTIED),
    (Call::Heard, Did::Done, HEARD),
    (Call::Heard, Did::No, EMPTIED),
];

/// Those that have no sorts.
const BARE: [(Call, Did); 19] = [
    (Call::Update, Did::Refused(16)),
    (Call::Update, Did::Refused(20)),
    (Call::Update, Did::Refused(23)),
    (Call::Limit, Did::Refused(16)),
    (Call::Connected, Did::Refused(23)),
    (Call::ClientsId, Did::Refused(14)),
    (Call::ClientsId, Did::Refused(23)),
    (Call::ClientsSlot, Did::Refused(14)),
    (Call::ClientsSlot, Did::Refused(23)),
    (Call::Addresses, Did::Refused(14)),
    (Call::Addresses, Did::Refused(23)),
    (Call::IsConnected, Did::No),
    (Call::IsConnected, Did::Refused(23)),
    (Call::ClientAddr, Did::No),
    (Call::ClientAddr, Did::Refused(23)),
    (Call::UserData, Did::No),
    (Call::UserData, Did::Refused(23)),
    (Call::Heard, Did::No),
    (Call::Heard, Did::Refused(23)),
];

/// Each refusal with each type that can have it, each type written and read, each answer of a table.
pub fn wanted() -> Vec<Row> {
    let mut rows: Vec<Row> = PLAIN.map(|call| (call, Did::Done, None)).into();
    rows.extend(UNTYPED.map(|(call, number)| (call, Did::Refused(number), None)));
    rows.extend(UNSORTED.map(|(call, did)| (call, did, None)));
    rows.extend(BARE.map(|(call, did)| (call, did, None)));
    for (call, number, kinds) in REFUSALS {
        let row = |kind: &u8| (call, Did::Refused(number), Some(*kind));
        rows.extend(kinds.iter().map(row));
    }
    for call in [Call::Encode, Call::Decode] {
        rows.extend(ALL.iter().map(|kind| (call, Did::Done, Some(*kind))));
    }
    for (call, did, kinds) in TABLES.into_iter().chain(SERVERS) {
        rows.extend(kinds.iter().map(|kind| (call, did, Some(*kind))));
    }
    rows
}
