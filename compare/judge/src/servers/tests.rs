use ours::tables::{ENTRY_BYTES, PLACE_WORDS};

use super::*;
use crate::case::Case;
use crate::shrink::shrink;
use crate::tables::{words, Fill, Place, Sparse, Time};

#[test]
fn pending_places_have_their_expiry_in_the_body() {
    let words_of = waiting_words(&[Waiting { mark: 2, expiry: 9 }, Waiting::EMPTY]);
    assert_eq!(words_of.len(), 2 * PLACE_WORDS);
    assert_eq!(words_of[..2], [2, 0]);
    assert_eq!(words_of[4..7], words(&place_address(0)));
    assert_eq!((words_of[10 + 15], words_of[10 + 305 + 15]), (9, 0));
    assert_ne!(place_address(0), place_address(256));
}

#[test]
fn slots_have_time_and_user_data_in_the_body() {
    let seat = Seat {
        mark: 1,
        id: 70,
        received: Time::new(5, 6),
        user: 7,
        ..Seat::EMPTY
    };
    let words_of = seat_words(&[Seat::EMPTY, seat]);
    assert_eq!(words_of[..4], [0, 1, 0, 70]);
    let body = &words_of[10 + 305..];
    assert_eq!(body[9..11], [5, 6]);
    let user = user_bytes(7);
    assert_eq!(body[16].to_le_bytes(), user[..8]);
    assert_eq!(body[47].to_le_bytes(), user[248..]);
    assert_ne!(user_bytes(7), user_bytes(8));
}

#[test]
fn what_a_set_up_lacks_is_told_in_document_01s_order() {
    assert_eq!(Start::whole(2).lacks(), []);
    assert!(Start::whole(2).is_whole() && !Start::small().is_whole());
    let mut start = Start::small();
    start.clock = Time::new(u64::MAX, 1_000_000_000);
    start.public = vec![place_address(0), place_address(1)];
    start.public[1].kind = 5;
    assert_eq!(start.lacks(), [Lack::Malformed, Lack::ClockEnd]);
    start.entries = ENTRY_BYTES + 1;
    start.limit = 2;
    let lacks = start.lacks();
    assert_eq!(lacks[..2], [Lack::PartEntries, Lack::OverLimit]);
    let numbers: Vec<u8> = lacks.iter().map(|lack| lack.number()).collect();
    assert_eq!(numbers, [23, 23, 19, 20]);
}

/// Whether an update leaves a used place that is about to expire.
fn about_to_expire(case: &Case) -> bool {
    let Case::Server(Server::Update(update)) = case else {
        return false;
    };
    let secs = update.after().map(|after| after.secs);
    let mut places = update.table.all().into_iter();
    places.any(|place| place.mark > 1 && Some(place.expiry) == secs)
}

#[test]
fn an_update_gets_smaller() {
    let waiting = Waiting {
        mark: 1 << 40,
        expiry: 500,
    };
    let table = Sparse::new(300, Fill::Drawn(4)).with(200, waiting);
    let mut update = Update::plain(table, Time::new(499, 999_999_999), Time::new(0, 1));
    update.fit = Fit::Lent(7);
    let smallest = shrink(Case::Server(Server::Update(update)), about_to_expire);
    let waiting = Waiting { mark: 2, expiry: 0 };
    let table = Sparse::new(1, Fill::Same(Waiting::EMPTY)).with(0, waiting);
    let update = Update::plain(table, Time::ZERO, Time::ZERO);
    assert_eq!(smallest, Case::Server(Server::Update(update)));
}

#[test]
fn a_set_up_gets_smaller() {
    let mut start = Start::whole(9);
    start.public = vec![place_address(3); 4];
    start.over = 2;
    start.secure = true;
    let smallest = shrink(Case::Server(Server::Start(start)), |case| match case {
        Case::Server(Server::Start(start)) => start.limit >= 3 && start.lacks().is_empty(),
        _ => false,
    });
    let least = Start {
        slots: PLACE_WORDS * 3,
        limit: 3,
        ..Start::small()
    };
    assert_eq!(smallest, Case::Server(Server::Start(least)));
}
