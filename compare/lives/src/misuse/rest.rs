//! With no ask open.

use oracle::lives::{self, NetcodeServer};

use super::{Tried, GOOD};
use crate::addresses::Wire;
use crate::call::Call;
use crate::counts::Counts;
use crate::hear::{hear, Ask, Outcome};
use crate::host::nobody;
use crate::ours::{Lent, Ours};

/// With no ask open: answers are 17, other lengths 23, short outputs 14, malformed addresses 19.
pub fn at_rest(ours: &mut Ours, server: &NetcodeServer, counts: &mut Counts) -> Result<(), String> {
    let mut tried = Tried::new(ours, counts);
    let nothing = |lent: &mut Lent| (lent.out, lent.slots, lent.pending) = (0, 0, 0);
    tried.refuses("answer_open", 17, nothing, |ours| ours.answer_open(true))?;
    tried.refuses("answer_seal", 17, nothing, |ours| ours.answer_seal(true))?;
    let token = |ours: &mut Ours| ours.answer_token(true, &nobody(), &[5]);
    tried.refuses("answer_token", 17, nothing, token)?;
    unfit_calls(&mut tried)?;
    for id in server.clients_id() {
        short_outputs(&mut tried, server, id)?;
    }
    drop(tried);
    short_lists(ours, server, counts)
}

fn unfit_calls(tried: &mut Tried) -> Result<(), String> {
    let wrong = Wire { kind: 5, ..GOOD };
    let mut fifth = GOOD;
    fifth.ip[4] = 1;
    let process = |ours: &mut Ours| ours.process_packet(&wrong);
    tried.refuses(
        "update",
        23,
        |lent| lent.pending -= 1,
        |ours| ours.update(u64::MAX, 0),
    )?;
    tried.refuses(
        "process_packet",
        23,
        |lent| (lent.slots, lent.out) = (lent.slots - 1, 0),
        process,
    )?;
    tried.refuses("process_packet", 23, |lent| lent.pending -= 310, process)?;
    tried.refuses(
        "process_packet",
        14,
        |lent| (lent.out, lent.datagram) = (1399, 0),
        process,
    )?;
    tried.refuses("process_packet", 19, |lent| lent.datagram = 0, process)?;
    tried.refuses(
        "process_packet",
        19,
        |lent| lent.datagram = 0,
        |ours| {
            ours.process_packet(&fifth);
        },
    )?;
    let short = |lent: &mut Lent| (lent.slots, lent.out) = (lent.slots - 1, 0);
    let payload = |ours: &mut Ours| ours.generate_payload_packet(1, &[0; 1301]);
    tried.refuses("generate_payload_packet", 23, short, payload)?;
    tried.refuses("update_client", 23, short, |ours| ours.update_client(1))?;
    tried.refuses("disconnect", 23, short, |ours| ours.disconnect(1))
}

/// The calls that make a packet for this client, and how long the Rust's is; none whose counter is spent, since 15 comes before 14.
pub fn needed(server: &NetcodeServer, id: u64) -> Vec<(Call, usize)> {
    let payload = Call::Payload {
        id,
        bytes: vec![1; 9],
    };
    let calls = [payload, Call::UpdateClient { id }, Call::Disconnect { id }];
    let length = |call: &Call| {
        let heard = hear(&mut lives::copy(server), call, None);
        let is_spent = |ask: &Ask| ask.asked.nonce[4..] == [0xFF; 8];
        match heard.outcome {
            _ if heard.asks.iter().any(is_spent) => None,
            Some(Outcome::Send { packet, .. }) => Some(packet.len()),
            Some(Outcome::Ended { packet, .. }) => packet.map(|packet| packet.len()),
            _ => None,
        }
    };
    let with_length = |call: Call| length(&call).map(|length| (call, length));
    calls.into_iter().filter_map(with_length).collect()
}

/// One byte less than a packet needs is 14.
fn short_outputs(tried: &mut Tried, server: &NetcodeServer, id: u64) -> Result<(), String> {
    for (call, length) in needed(server, id) {
        let short = |lent: &mut Lent| lent.out = length - 1;
        match &call {
            Call::Payload { id, bytes } => {
                let payload = |ours: &mut Ours| ours.generate_payload_packet(*id, bytes);
                tried.refuses("generate_payload_packet", 14, short, payload)?;
            }
            Call::UpdateClient { id } => {
                tried.refuses("update_client", 14, short, |ours| ours.update_client(*id))?;
            }
            _ => tried.refuses("disconnect", 14, short, |ours| ours.disconnect(id))?,
        }
    }
    Ok(())
}

/// Lists without room are 14 and tables of another length 23; nothing is written.
fn short_lists(ours: &mut Ours, server: &NetcodeServer, counts: &mut Counts) -> Result<(), String> {
    let connected = server.connected_clients();
    let mut list = vec![7; connected.max(ours.public.len())];
    let mut replies = vec![(14, ours.addresses(&mut list[..ours.public.len() - 1]))];
    if connected > 0 {
        replies.push((14, ours.clients_id(&mut list[..connected - 1])));
        replies.push((14, ours.clients_slot(&mut list[..connected - 1])));
    }
    let lent = ours.lent;
    ours.lent.slots -= 1;
    ours.lent.public -= 1;
    replies.extend([
        (23, ours.connected_clients()),
        (23, ours.is_client_connected(1)),
        (23, ours.client_addr(1)),
        (23, ours.time_since_last_received_packet(1)),
        (23, ours.user_data(1, &mut [0; 256])),
        (23, ours.clients_id(&mut list)),
        (23, ours.clients_slot(&mut list)),
        (23, ours.addresses(&mut list)),
    ]);
    ours.lent = lent;
    for (number, reply) in replies {
        counts.reach(&format!("queries: refusal {number}"));
        if reply != [0, number, 0, 0, 0] || list.iter().any(|word| *word != 7) {
            return Err(format!(
                "ours alone, queries: {number} is due, ours says {reply:?}"
            ));
        }
    }
    Ok(())
}
