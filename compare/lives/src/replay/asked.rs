//! What the queries say, each as it comes: a refusal is its number after a sign.

use crate::ours::Ours;
use crate::sample::{hex, list};
use crate::sys::Reply;

fn told(reply: &Reply, none: &str, values: impl FnOnce() -> String) -> String {
    match reply[0] {
        0 => format!("!{}", reply[1]),
        1 => none.into(),
        _ => values(),
    }
}

fn numbers(reply: Reply, none: &str, count: usize) -> String {
    told(&reply, none, || {
        let words = reply[2..2 + count].iter().map(u64::to_string);
        words.collect::<Vec<String>>().join(" ")
    })
}

fn listed(room: usize, fill: impl FnOnce(&mut [u64]) -> Reply) -> String {
    let mut words = vec![0; room];
    let reply = fill(&mut words);
    told(&reply, "", || list(&words[..reply[2] as usize]))
}

pub fn asked(ours: &Ours, id: u64, room: usize) -> String {
    let mut data = [0; 256];
    let user_data = ours.user_data(id, &mut data);
    let [limit, secs, nanos] = ours.itself();
    let all = [
        format!("{limit} {secs} {nanos}"),
        numbers(ours.connected_clients(), "", 1),
        told(&ours.is_client_connected(id), "0", || "1".into()),
        numbers(ours.client_addr(id), "0 0 0", 3),
        numbers(ours.time_since_last_received_packet(id), "0 0", 2),
        told(&user_data, "-", || hex(&data)),
        listed(room, |words| ours.clients_id(words)),
        listed(room, |words| ours.clients_slot(words)),
    ];
    all.join(" ")
}
