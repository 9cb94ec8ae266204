//! What each entry point says.

use crate::call::{Call, Turn};
use crate::counts::Counts;
use crate::expect::Step;
use crate::host::{self, Kind};

fn entry_of(call: &Call) -> &'static str {
    match call {
        Call::Update { .. } => "update",
        Call::SetMaxClients(_) => "set_max_clients",
        Call::Datagram { .. } => "process_packet",
        Call::Payload { .. } => "generate_payload_packet",
        Call::UpdateClient { .. } => "update_client",
        Call::Disconnect { .. } => "disconnect",
        Call::Query { .. } | Call::Poke(_) | Call::Misuse => "none",
    }
}

/// The call that answers an ask, and what the ask was for.
fn answer_to(step: &Step, call: &Call, first: bool) -> &'static str {
    match host::kind_of(&step.words) {
        Kind::Token => "answer_token",
        Kind::Open if first => "answer_open of a packet",
        Kind::Open => "answer_open of a challenge",
        Kind::Seal if step.words[11] == 0 => "answer_seal of a challenge token",
        Kind::Seal => match (step.packet.as_ref().map(|packet| packet[0] & 15), call) {
            (Some(1), _) => "answer_seal of a denied",
            (Some(2), _) => "answer_seal of a challenge packet",
            (Some(4), Call::Datagram { .. }) => "answer_seal of a first keep-alive",
            (Some(4), _) => "answer_seal of a keep-alive",
            (Some(5), _) => "answer_seal of a payload",
            _ => "answer_seal of a disconnect",
        },
    }
}

fn said(step: &Step) -> String {
    let [case, number] = [step.words[0], step.words[1]];
    match case {
        0 => format!("refusal {number}"),
        1 => "nothing".into(),
        2 => match host::kind_of(&step.words) {
            Kind::Open => "ask to open".into(),
            Kind::Token => "ask to open a token".into(),
            Kind::Seal => "ask to seal".into(),
        },
        3 => "packet to send".into(),
        4 => "payload".into(),
        5 => "connected".into(),
        _ if number == 0 => "disconnected".into(),
        _ => format!("disconnected with {number}"),
    }
}

pub fn count_steps(turn: &Turn, steps: &[Step], counts: &mut Counts) {
    let mut entry = entry_of(&turn.call);
    for (at, step) in steps.iter().enumerate() {
        counts.reach(&format!("{entry}: {}", said(step)));
        if step.words[0] == 2 {
            entry = answer_to(step, &turn.call, at == 0);
        }
    }
}
