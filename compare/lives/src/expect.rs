//! What ours has to come to, step by step, from the Rust alone. A call of the Rust is one call and some answers of ours; what its tables
//! are at an ask is what they are where that ask gets a no.

use std::net::SocketAddr;

use oracle::lives::{self, NetcodeServer};

use crate::addresses::three_words;
use crate::beyond::{self, Tamed};
use crate::call::{Call, Turn};
use crate::hear::{hear, Ask, Heard, Outcome};
use crate::sys::{Told, Words};

/// One call or answer of ours.
pub struct Step {
    pub words: Words,
    pub told: Told,
    /// What stands at the output's start: of an ask to seal in clear and without its tag, else the whole packet.
    pub packet: Option<Vec<u8>>,
    /// The server as this step leaves it; none for the last step, which leaves the Rust's own.
    pub state: Option<NetcodeServer>,
}

pub struct Expected {
    pub steps: Vec<Step>,
    pub outcome: Outcome,
    /// What the host opened: the datagram as the Rust left it, where its first ask was to open a packet and got a yes.
    pub opened: Option<Vec<u8>>,
    /// What the Rust does where document 01's domain ends.
    pub beyond: Option<String>,
    /// Whose counter is spent, where the call comes to 15.
    pub spent: Option<&'static str>,
}

/// Runs the call on the Rust, which is as `pre` and is left as ours has to be.
pub fn expect(
    pre: &NetcodeServer,
    server: &mut NetcodeServer,
    turn: &Turn,
) -> Result<Expected, String> {
    let call = &turn.call;
    if let Some((number, sort)) = beyond::before(pre, call) {
        return Ok(refused(number, sort));
    }
    let tamed = Tamed::of(pre, call);
    let whole = attempt(pre, &tamed, call, None);
    if let Some(number) = beyond::short(pre, call, &whole.0) {
        return Ok(refused(number, format!("{number}: panics")));
    }
    let no = turn.no.filter(|no| *no < whole.0.asks.len());
    let spent = beyond::spent(pre, &whole.0.asks).filter(|at| no.is_none_or(|no| no >= *at));
    let cut = spent.or(no);
    let counter = spent.map(|at| beyond::counter_of(pre, call, &whole.0.asks[at]));
    let beyond = beyond::sort(pre, call, &tamed, counter);
    // An ask that comes too late for its counter is none of ours; one that gets a no is the last.
    let shown = spent.or(no.map(|at| at + 1));
    let mut steps = ask_steps(&whole.0.asks, shown.unwrap_or(whole.0.asks.len()));
    for (at, step) in steps.iter_mut().enumerate() {
        step.state = Some(attempt(pre, &tamed, call, Some(at)).1);
    }
    let (mut last, after) = match cut {
        Some(at) => attempt(pre, &tamed, call, Some(at)),
        None => whole,
    };
    *server = after;
    let outcome = last.outcome.take().ok_or("the Rust panics in the domain")?;
    let outcome = numbered(outcome, call, spent.is_some(), cut.is_some());
    steps.push(last_step(&outcome));
    Ok(Expected {
        steps,
        opened: opened(&last),
        outcome,
        beyond,
        spent: counter,
    })
}

/// The call on a copy, and that copy after it.
fn attempt(
    pre: &NetcodeServer,
    tamed: &Tamed,
    call: &Call,
    refused: Option<usize>,
) -> (Heard, NetcodeServer) {
    let mut server = lives::copy(pre);
    tamed.tame(&mut server);
    let heard = hear(&mut server, call, refused);
    tamed.restore(&mut server);
    (heard, server)
}

fn refused(number: u8, sort: String) -> Expected {
    let outcome = Outcome::Refused(number);
    Expected {
        steps: vec![last_step(&outcome)],
        outcome,
        opened: None,
        beyond: Some(sort),
        spent: None,
    }
}

/// 15 where the counter is spent, and 24 where a keep-alive was not sealed, of which the Rust's `None` says nothing.
fn numbered(outcome: Outcome, call: &Call, spent: bool, cut: bool) -> Outcome {
    match outcome {
        Outcome::Ended {
            id,
            to,
            packet: None,
            ..
        } if spent => Outcome::Ended {
            id,
            to,
            packet: None,
            number: 15,
        },
        _ if spent => Outcome::Refused(15),
        Outcome::Nothing if cut && matches!(call, Call::UpdateClient { .. }) => {
            Outcome::Refused(24)
        }
        other => other,
    }
}

fn opened(heard: &Heard) -> Option<Vec<u8>> {
    let first = &heard.asks.first()?.asked;
    let packet = !first.seal && first.nonce.len() == 12 && first.granted;
    packet.then(|| heard.datagram.clone())
}

fn ask_steps(asks: &[Ask], shown: usize) -> Vec<Step> {
    (0..shown)
        .map(|at| {
            let start = part_start(asks, at);
            Step {
                words: ask_words(&asks[at], start),
                told: told(&asks[at]),
                packet: clear_packet(asks, at),
                state: None,
            }
        })
        .collect()
}

fn is_token_seal(ask: &Ask) -> bool {
    ask.asked.seal && ask.asked.additional.is_empty()
}

/// A private token stands at 54 of a request, a challenge token eight bytes into its packet's part.
fn part_start(asks: &[Ask], at: usize) -> usize {
    let ask = &asks[at];
    match ask.start {
        _ if ask.asked.nonce.len() == 24 => 54,
        _ if is_token_seal(ask) => asks[at + 1].start.expect("a part of the output") + 8,
        Some(start) => start,
        None => asks[at - 1].start.expect("a part of the datagram") + 8,
    }
}

fn ask_words(ask: &Ask, start: usize) -> Words {
    let asked = &ask.asked;
    let mut words = [0; 14];
    words[0] = 2;
    words[9] = u64::from(asked.seal);
    words[10] = asked.nonce.len() as u64;
    words[11] = asked.additional.len() as u64;
    words[12] = start as u64;
    words[13] = (start + asked.text.len() + 16) as u64;
    words
}

fn told(ask: &Ask) -> Told {
    let asked = &ask.asked;
    let mut told = [0; 85];
    told[..32].copy_from_slice(&asked.key);
    told[32..32 + asked.nonce.len()].copy_from_slice(&asked.nonce);
    told[56..56 + asked.additional.len()].copy_from_slice(&asked.additional);
    told
}

/// Prefix byte and sequence of a packet, from what its seal is told.
fn head(ask: &Ask) -> Vec<u8> {
    let prefix = ask.asked.additional[21];
    let mut head = vec![prefix];
    head.extend_from_slice(&ask.asked.nonce[4..4 + usize::from(prefix >> 4)]);
    head
}

fn clear_packet(asks: &[Ask], at: usize) -> Option<Vec<u8>> {
    let ask = &asks[at];
    if !ask.asked.seal {
        return None;
    }
    let mut packet;
    if is_token_seal(ask) {
        packet = head(&asks[at + 1]);
        packet.extend_from_slice(&asks[at + 1].asked.text[..8]);
    } else {
        packet = head(ask);
    }
    packet.extend_from_slice(&ask.asked.text);
    Some(packet)
}

/// The words of a case that has a client's id, an address and a packet, or some of these.
fn addressed(case: u64, id: u64, to: SocketAddr, packet: Option<&Vec<u8>>) -> Words {
    let mut words = [0; 14];
    words[0] = case;
    words[2] = id;
    words[4..7].copy_from_slice(&three_words(to));
    words[8] = packet.map_or(0, Vec::len) as u64;
    words
}

fn last_words(outcome: &Outcome) -> Words {
    let mut words = [0; 14];
    match outcome {
        Outcome::Refused(number) => words[1] = u64::from(*number),
        Outcome::Nothing => words[0] = 1,
        Outcome::Send { to, packet } => words = addressed(3, 0, *to, Some(packet)),
        Outcome::Payload { id, start, bytes } => {
            (words[0], words[2]) = (4, *id);
            words[7] = *start as u64;
            words[8] = (start + bytes.len()) as u64;
        }
        Outcome::Connected {
            id,
            to,
            slot,
            packet,
            ..
        } => {
            words = addressed(5, *id, *to, Some(packet));
            words[3] = *slot as u64;
        }
        Outcome::Ended {
            id,
            to,
            packet,
            number,
        } => {
            words = addressed(6, *id, *to, packet.as_ref());
            words[1] = u64::from(*number);
        }
    }
    words
}

fn last_step(outcome: &Outcome) -> Step {
    let packet = match outcome {
        Outcome::Send { packet, .. } | Outcome::Connected { packet, .. } => Some(packet.clone()),
        Outcome::Ended { packet, .. } => packet.clone(),
        _ => None,
    };
    Step {
        words: last_words(outcome),
        told: [0; 85],
        packet,
        state: None,
    }
}
