//! The words in which the counts are printed.

mod servers;

use crate::case::Call;
use crate::check::{entries, moments, slots, Beyond, Class, Did};

/// The type of a packet, or the sort of an answer.
pub fn name(call: Call, kind: u8) -> &'static str {
    match call {
        Call::Encode | Call::Decode => packet_name(kind),
        Call::Entry => entry_name(kind),
        Call::ByAddress | Call::ById | Call::Free | Call::Count => place_name(kind),
        Call::Add | Call::Before | Call::Past | Call::Due | Call::Since => moment_name(kind),
        _ => servers::name(call, kind),
    }
}

fn entry_name(kind: u8) -> &'static str {
    match kind {
        entries::ONE_MATCH => "by one match",
        entries::LAST_MATCH => "by the last",
        entries::EMPTY_PLACE => "empty place",
        entries::LOWEST => "lowest time",
        _ => "first lowest",
    }
}

fn place_name(kind: u8) -> &'static str {
    match kind {
        slots::AT_FIRST => "the first",
        slots::BETWEEN => "between",
        slots::AT_LAST => "the last",
        slots::ALL_USED => "all used",
        slots::NONE_USED => "none used",
        _ => "some used",
    }
}

fn moment_name(kind: u8) -> &'static str {
    match kind {
        moments::SAME => "the same",
        moments::NEXT => "1 ns apart",
        moments::APART => "apart",
        moments::PLAIN => "plain",
        _ => "carried",
    }
}

fn packet_name(kind: u8) -> &'static str {
    const NAMES: [&str; 7] = [
        "request",
        "denied",
        "challenge",
        "response",
        "keep-alive",
        "payload",
        "disconnect",
    ];
    NAMES.get(usize::from(kind)).unwrap_or(&"no type")
}

pub fn answer(call: Call, did: Did) -> String {
    let word = match (did, call) {
        (Did::Refused(number), _) => return number.to_string(),
        (Did::Panicked, _) => "panicked",
        (Did::Broken, _) => "broken",
        (Did::Absent, _) => "absent",
        (Did::No, Call::ByAddress | Call::ById | Call::Free) => "none",
        (Did::No, Call::ClientAddr | Call::UserData | Call::Heard) => "none",
        (Did::No, _) => "no",
        (Did::Done, Call::Encode | Call::Challenge | Call::Prefix) => "written",
        (Did::Done, Call::Window) => "accepted",
        (Did::Done, Call::Entry) => "allowed",
        (Did::Done, Call::ByAddress | Call::ById | Call::Free) => "found",
        (Did::Done, Call::Count) => "counted",
        (Did::Done, Call::Add | Call::Update) => "moved",
        (Did::Done, Call::Since | Call::ClientAddr | Call::UserData | Call::Heard) => "given",
        (Did::Done, Call::Hosts | Call::Before | Call::Past | Call::Due) => "yes",
        (Did::Done, Call::IsConnected) => "yes",
        (Did::Done, Call::Limit | Call::SetUp) => "set",
        (Did::Done, Call::Connected) => "counted",
        (Did::Done, Call::ClientsId | Call::ClientsSlot | Call::Addresses) => "listed",
        (Did::Done, _) => "read",
    };
    word.into()
}

/// A class in words, with what ours does.
pub fn class_text(class: Class) -> &'static str {
    match class {
        Class::LongCount => "decode, over 8 sequence bytes claimed (ours 4)",
        Class::HighGuarded => "decode, windowed, sequence from 2^64-256 on, a window (ours 5)",
        Class::HighUnguarded => "decode, windowed, sequence from 2^64-256 on, no window (ours 5)",
        Class::ShortPart => "decode, under 16 bytes after the sequence (ours 7)",
        Class::LongRead => "read_sequence of over 8 bytes (ours 4)",
        Class::HighTest => "window, test from 2^64-256 on (ours 5)",
        Class::HighAdvance => "window, advance from 2^64-256 on (ours: as it was)",
        Class::OldAdvance => "window, advance by one that is received (ours: as it was)",
        Class::ShortBuffer => "encode into a short buffer (ours 14, the buffer as it was)",
        Class::WideType => "encode_prefix of a type over 15 (ours: its low four bits)",
        Class::FewEntries => {
            "entry, under 2,048 of them (ours: as the Rust with its other places used and late)"
        }
        Class::LongNanos => {
            "nanoseconds from 10^9 on (ours: whole nanoseconds; the Rust at as many)"
        }
        Class::OddTimeout => {
            "past, timeout 0 or from 2^31 on (ours: exact; the Rust's i32 is not over 0)"
        }
        Class::ClockEnd => "add, past the range (ours 20)",
        Class::PastEnd => "past, the sum passes the range (ours: exact)",
        Class::DueEnd => "due, the sum passes the range (ours: exact)",
        Class::LaterThan => "since a time later than now (ours: zero)",
        Class::UpdateEnd => "update, past the clock's range (ours 20)",
        Class::AskOpen => "update or limit while an ask is open (ours 16)",
        Class::OtherLength => "a table or list of another length than set-up's (ours 23)",
        Class::ShortList => "a list that is too short (ours 14)",
        Class::StartTables => "set-up, tables that are no tables (ours 23)",
        Class::StartLimit => "set-up, a limit over the slots (ours 23)",
        Class::StartAddress => "set-up, a malformed address (ours 19)",
        Class::StartEnd => "set-up, a clock past its range (ours 20)",
        Class::OtherTables => {
            "set-up, other numbers of places than the Rust's (ours: as the Rust with its own)"
        }
    }
}

/// What the Rust did, in words.
pub fn beyond_text(beyond: &Beyond) -> String {
    let did = did_text(beyond);
    let (changed, same) = match beyond.class {
        Class::LongRead | Class::HighTest | Class::LongNanos | Class::OddTimeout => return did,
        Class::PastEnd | Class::DueEnd | Class::LaterThan => return did,
        Class::AskOpen | Class::OtherLength | Class::ShortList => return did,
        Class::StartTables | Class::StartLimit | Class::StartAddress => return did,
        Class::StartEnd | Class::OtherTables => return did,
        Class::UpdateEnd if beyond.did == Did::Absent => return did,
        Class::UpdateEnd => ("clock or pending changed", "clock and pending as they were"),
        Class::ShortBuffer => ("buffer changed", "buffer as it was"),
        Class::FewEntries => ("entries changed", "entries as they were"),
        Class::ClockEnd => ("clock changed", "clock as it was"),
        Class::WideType => ("another byte", "the same"),
        _ => ("window changed", "window as it was"),
    };
    format!("{did}, {}", if beyond.changed { changed } else { same })
}

fn did_text(beyond: &Beyond) -> String {
    let word = match (beyond.did, beyond.class) {
        (Did::Refused(_), Class::HighTest) => "received",
        (Did::Refused(number), _) => return format!("refused as {number}"),
        (Did::Panicked | Did::Broken, _) => "panicked",
        (Did::Absent, Class::AskOpen) => "has no asks",
        (Did::Absent, Class::OtherLength | Class::ShortList) => "is lent none",
        (Did::Absent, Class::StartAddress) => "has no such address",
        (Did::Absent, Class::StartTables | Class::StartLimit) => "has no such address or time",
        (Did::Absent, _) => "has no such time",
        (Did::No, _) => "no",
        (Did::Done, Class::HighTest) => "not received",
        (Did::Done, Class::HighAdvance | Class::OldAdvance) => "advanced",
        (Did::Done, Class::WideType) => "written",
        (Did::Done, Class::FewEntries | Class::LongNanos | Class::OddTimeout) => "yes",
        (Did::Done, Class::StartTables | Class::StartLimit) => "set up, as many slots as the limit",
        (Did::Done, Class::OtherTables) => "set up",
        (Did::Done, _) => "read",
    };
    word.into()
}
