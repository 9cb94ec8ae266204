//! The words of a whole server's calls.

use crate::case::Call;
use crate::check::servers::{queries, starts, updates};
use crate::servers::Lack;

/// The sort of an answer.
pub fn name(call: Call, kind: u8) -> &'static str {
    match call {
        Call::Update => update_name(kind),
        Call::Limit => limit_name(kind),
        Call::SetUp => start_name(kind),
        _ => query_name(kind),
    }
}

fn update_name(kind: u8) -> &'static str {
    const CARRY: u8 = updates::CARRY;
    match kind {
        updates::NONE_PENDING => "none pending",
        updates::ALL_STAY => "all stay",
        updates::SOME_GO => "some go",
        updates::ALL_GO => "all go",
        updates::AT_THE_TURN => "at the turn",
        CARRY => "none, carry",
        kind => match kind - CARRY {
            updates::ALL_STAY => "stay, carry",
            updates::SOME_GO => "some, carry",
            updates::ALL_GO => "go, carry",
            _ => "turn, carry",
        },
    }
}

fn limit_name(kind: u8) -> &'static str {
    match kind {
        updates::ZERO => "0",
        updates::BELOW => "below 1024",
        updates::AT_MOST => "1024",
        _ => "capped",
    }
}

fn query_name(kind: u8) -> &'static str {
    match kind {
        queries::LOWER => "lower of two",
        queries::DURING => "during an ask",
        queries::EMPTIED => "emptied",
        queries::JUST_NOW => "the same",
        queries::PLAIN => "plain",
        queries::CARRIED => "carried",
        place => super::place_name(place),
    }
}

fn start_name(kind: u8) -> &'static str {
    const NAMES: [(Lack, &str); 13] = [
        (Lack::NoSlots, "no slots"),
        (Lack::ManySlots, "1025 slots"),
        (Lack::PartSlots, "part slots"),
        (Lack::NoPending, "no pending"),
        (Lack::ManyPending, "4097 pending"),
        (Lack::PartPending, "part pending"),
        (Lack::NoEntries, "no entries"),
        (Lack::ManyEntries, "2049 entries"),
        (Lack::PartEntries, "part entries"),
        (Lack::PartAddress, "part address"),
        (Lack::OverLimit, "limit"),
        (Lack::Malformed, "address"),
        (Lack::ClockEnd, "clock"),
    ];
    match kind {
        starts::OPEN => "not secure",
        starts::SECURE => "secure",
        starts::BEFORE_19 => "before 19",
        starts::BEFORE_20 => "before 20",
        starts::BEFORE_BOTH => "before both",
        kind => NAMES
            .iter()
            .find(|(lack, _)| starts::lacking(*lack) == kind)
            .map_or("no sort", |(_, name)| name),
    }
}
