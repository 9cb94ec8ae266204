//! The queries of slots.

use std::iter::empty;
use std::time::Duration;

use oracle::servers::{self as rust, caught, Answer, NetcodeServer};
use ours::servers::{self as mine, Record, Reply, SLOTS};
use ours::tables::PLACE_WORDS;

use super::super::moments;
use super::publics::Left;
use super::{record, replied, report, Class, Did, Diff, Report};
use crate::servers::{lent, seat_words, user_bytes, Query, Seat, What};
use crate::tables::{given, socket, words, Moment, Time, Told};

/// The sorts of an answer, beside those of a search: of two slots with one id the lower, while an ask is
/// open, in an emptied slot; the sorts of a difference.
pub const LOWER: u8 = 6;
pub const DURING: u8 = 7;
pub const EMPTIED: u8 = 8;
pub const JUST_NOW: u8 = 9;
pub const PLAIN: u8 = 10;
pub const CARRIED: u8 = 11;
pub use super::super::slots::{ALL_USED, AT_FIRST, AT_LAST, BETWEEN, NONE_USED, SOME_USED};

const NOTHING: Reply = [1, 0, 0, 0, 0];

pub fn check(case: &Query) -> Report {
    let places = case.table.all();
    let mut diff = Diff::default();
    let mut record = record(case.now, case.stage);
    record[SLOTS] = case.fit.found(places.len()) as u64;
    let room = match case.what {
        What::Ids(room) | What::Slots(room) => room,
        _ => 0,
    };
    let mut expected = Left::new(room);
    let (rust, class) = match refusal(case, &places) {
        Some((number, class)) => {
            expected.reply = [0, number.into(), 0, 0, 0];
            (Did::Absent, Some(class))
        }
        None => theirs(case, &places, &mut expected, &mut diff),
    };
    let before = lent(seat_words(&places), case.fit);
    let table = before.clone();
    let mut ours = Left::new(room);
    ask(&record, &table, case.what, &mut ours);
    expected.compare(&ours, &mut diff);
    diff.table("the slots after it", &before, &table);
    let did = replied(&ours.reply);
    let mut report = report(rust, did, diff, class, false);
    report.kind = match did {
        Did::Done => Some(sort(case, &places)),
        Did::No => {
            let kept = |place: &Seat| Some(place.id) == case.what.id();
            places.iter().any(kept).then_some(EMPTIED)
        }
        _ => None,
    };
    report
}

/// 23, then 14.
fn refusal(case: &Query, places: &[Seat]) -> Option<(u8, Class)> {
    let found = case.fit.found(places.len());
    let fits = (1..=1024).contains(&found);
    let fits = fits && case.fit.lent(PLACE_WORDS * places.len()) == PLACE_WORDS * found;
    let used = places.iter().filter(|place| place.mark != 0).count();
    match case.what {
        _ if !fits => Some((23, Class::OtherLength)),
        What::Ids(room) | What::Slots(room) if room < used => Some((14, Class::ShortList)),
        _ => None,
    }
}

/// The lowest used place with the id.
fn place_of(places: &[Seat], what: What) -> Option<(usize, &Seat)> {
    let mut used = places.iter().enumerate();
    used.find(|(_, place)| place.mark != 0 && Some(place.id) == what.id())
}

/// What the Rust answers; where it panics or has no such time, what document 01 says.
fn theirs(
    case: &Query,
    places: &[Seat],
    expected: &mut Left,
    diff: &mut Diff,
) -> (Did, Option<Class>) {
    // A time that it does not have is asked for by none of the other queries.
    let time = |time: Time| time.duration().unwrap_or(Duration::MAX);
    let slot = |place: &Seat| rust::Record {
        client_id: place.id,
        addr: socket(&place.address).expect("well-formed"),
        received: time(place.received),
        user_data: user_bytes(place.user),
        expiry: 0,
    };
    let slots = places.iter();
    let slots = slots.map(|place| (place.mark != 0).then(|| slot(place)));
    let server = rust::server_with(time(case.now), 1, slots, empty());
    match (case.what, place_of(places, case.what)) {
        (What::Since(id), Some((_, place))) => {
            since(&server, id, case.now, place.received, expected, diff)
        }
        _ => {
            match caught(|| answer(&server, case.what, expected)) {
                Answer::Is(()) => {}
                Answer::Panicked { .. } => diff.fail("the Rust panicked in the domain"),
            }
            (replied(&expected.reply), None)
        }
    }
}

/// How long ago a client was heard of, which the Rust does not have for every time.
fn since(
    server: &NetcodeServer,
    id: u64,
    now: Time,
    then: Time,
    expected: &mut Left,
    diff: &mut Diff,
) -> (Did, Option<Class>) {
    let moment = Moment::Since { now, then };
    let class = moments::class(&moment);
    let told = match caught(|| server.time_since_last_received_packet(id)) {
        _ if now.duration().is_none() || then.duration().is_none() => None,
        Answer::Is(since) => Some(since.map(|since| Told::Gone(since.as_nanos()))),
        Answer::Panicked { .. } => Some(None),
    };
    let did = match told {
        None => Did::Absent,
        Some(Some(_)) => Did::Done,
        Some(None) => Did::Panicked,
    };
    if class.is_none() && did != Did::Done {
        diff.fail("the Rust panicked in the domain");
    }
    // Where a time has more nanoseconds than the Rust's, the Rust's has as many seconds more.
    let told = told.flatten().unwrap_or(moment.told());
    let [_, secs, nanos] = moments::words(told);
    expected.reply = [5, 0, secs, nanos, 0];
    (did, class)
}

/// All other queries, as the Rust answers them.
fn answer(server: &NetcodeServer, what: What, left: &mut Left) {
    let found = |is: bool, reply: Reply| if is { reply } else { NOTHING };
    match what {
        What::Count => left.listed(server.connected_clients(), &[]),
        What::Ids(_) => {
            let ids = server.clients_id();
            left.listed(ids.len(), &ids);
        }
        What::Slots(_) => {
            let slots = server.clients_slot().into_iter();
            let slots: Vec<u64> = slots.map(|slot| slot as u64).collect();
            left.listed(slots.len(), &slots);
        }
        What::Is(id) => left.reply = found(server.is_client_connected(id), [2, 0, 0, 0, 0]),
        What::Addr(id) => {
            left.reply = server.client_addr(id).map_or(NOTHING, |addr| {
                let [first, low, high] = words(&given(addr));
                [4, 0, first, low, high]
            });
        }
        What::Since(id) => {
            let since = server.time_since_last_received_packet(id);
            left.reply = found(since.is_some(), mine::UNREPLIED);
        }
        What::User(id) => {
            let user = server.user_data(id);
            left.reply = found(user.is_some(), [6, 0, 0, 0, 0]);
            left.user = user.unwrap_or(left.user);
        }
    }
}

fn ask(record: &Record, table: &[u64], what: What, left: &mut Left) {
    let Left { reply, list, user } = left;
    *reply = match what {
        What::Count => mine::connected_clients(record, table),
        What::Ids(_) => mine::clients_id(record, table, list),
        What::Slots(_) => mine::clients_slot(record, table, list),
        What::Is(id) => mine::is_client_connected(record, table, id),
        What::Addr(id) => mine::client_addr(record, table, id),
        What::Since(id) => mine::time_since_last_received_packet(record, table, id),
        What::User(id) => mine::user_data(record, table, id, user),
    };
}

fn sort(case: &Query, places: &[Seat]) -> u8 {
    let used = || places.iter().filter(|place| place.mark != 0);
    let count = used().count();
    match (case.what, place_of(places, case.what)) {
        _ if case.stage > 0 => DURING,
        (_, None) if count == 0 => NONE_USED,
        (_, None) if count == places.len() => ALL_USED,
        (_, None) => SOME_USED,
        _ if used()
            .filter(|place| Some(place.id) == case.what.id())
            .count()
            > 1 =>
        {
            LOWER
        }
        (What::Since(_), Some((_, place))) if place.received.whole() >= case.now.whole() => {
            JUST_NOW
        }
        (What::Since(_), Some((_, place))) if place.received.nanos > case.now.nanos => CARRIED,
        (What::Since(_), _) => PLAIN,
        (_, Some((0, _))) => AT_FIRST,
        (_, Some((at, _))) if at + 1 == places.len() => AT_LAST,
        _ => BETWEEN,
    }
}
