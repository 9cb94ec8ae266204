//! All that the queries say of a server, on both sides.

use oracle::lives::{caught, Answer, NetcodeServer};

use crate::addresses::three_words;
use crate::ours::Ours;
use crate::sys::Reply;

#[derive(Debug, PartialEq, Eq)]
pub struct Queried {
    pub itself: [u64; 3],
    pub count: u64,
    pub connected: bool,
    pub address: Option<[u64; 3]>,
    pub since: Option<[u64; 2]>,
    pub user_data: Option<Vec<u8>>,
    pub ids: Vec<u64>,
    pub slots: Vec<u64>,
    pub addresses: Vec<u64>,
}

/// The Rust's answers, and whether one of them was a panic, which is ours to answer with zero: a time later than now.
pub fn of_rust(server: &NetcodeServer, id: u64) -> (Queried, bool) {
    let now = server.current_time();
    let since = caught(|| server.time_since_last_received_packet(id));
    let (since, panicked) = match since {
        Answer::Is(since) => (since, false),
        Answer::Panicked { .. } => (Some(Default::default()), true),
    };
    let queried = Queried {
        itself: [
            server.max_clients() as u64,
            now.as_secs(),
            u64::from(now.subsec_nanos()),
        ],
        count: server.connected_clients() as u64,
        connected: server.is_client_connected(id),
        address: server.client_addr(id).map(three_words),
        since: since.map(|since| [since.as_secs(), u64::from(since.subsec_nanos())]),
        user_data: server.user_data(id).map(|data| data.to_vec()),
        ids: server.clients_id(),
        slots: server
            .clients_slot()
            .into_iter()
            .map(|slot| slot as u64)
            .collect(),
        addresses: server
            .addresses()
            .into_iter()
            .flat_map(three_words)
            .collect(),
    };
    (queried, panicked)
}

/// A reply of this case with so many values, or the case that there is no such client.
fn values(name: &str, reply: Reply, case: u64, count: usize) -> Result<Option<[u64; 3]>, String> {
    let zeros = |from: usize| reply[from..].iter().all(|word| *word == 0);
    match reply[0] {
        1 if zeros(1) => Ok(None),
        found if found == case && reply[1] == 0 && zeros(2 + count) => {
            Ok(Some([reply[2], reply[3], reply[4]]))
        }
        _ => Err(format!("ours replies to {name} with {reply:?}")),
    }
}

fn count(name: &str, reply: Reply) -> Result<u64, String> {
    let found = values(name, reply, 3, 1)?;
    found
        .map(|words| words[0])
        .ok_or(format!("ours has no {name}"))
}

/// A list that ours fills, in more room than is needed; what is past its end stays.
fn list(
    name: &str,
    room: usize,
    each: usize,
    fill: impl FnOnce(&mut [u64]) -> Reply,
) -> Result<Vec<u64>, String> {
    const REST: u64 = 0x5A5A;
    let mut list = vec![REST; room + 2];
    let filled = count(name, fill(&mut list))? as usize * each;
    if filled > room || list[filled..].iter().any(|word| *word != REST) {
        return Err(format!("ours fills {filled} words of {name}: {list:?}"));
    }
    list.truncate(filled);
    Ok(list)
}

pub fn of_ours(ours: &Ours, id: u64) -> Result<Queried, String> {
    let count = count("connected_clients", ours.connected_clients())?;
    let mut data = [0xA5; 256];
    let told = values("user_data", ours.user_data(id, &mut data), 6, 0)?;
    if told.is_none() && data != [0xA5; 256] {
        return Err("ours writes the user data of nobody".into());
    }
    let room = ours.slots.len() / crate::ours::PLACE_WORDS;
    Ok(Queried {
        itself: ours.itself(),
        count,
        connected: values("is_client_connected", ours.is_client_connected(id), 2, 0)?.is_some(),
        address: values("client_addr", ours.client_addr(id), 4, 3)?,
        since: values("since", ours.time_since_last_received_packet(id), 5, 2)?
            .map(|words| [words[0], words[1]]),
        user_data: told.map(|_| data.to_vec()),
        ids: list("clients_id", room, 1, |list| ours.clients_id(list))?,
        slots: list("clients_slot", room, 1, |list| ours.clients_slot(list))?,
        addresses: list("addresses", ours.public.len(), 3, |list| {
            ours.addresses(list)
        })?,
    })
}
