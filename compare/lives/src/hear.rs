//! One call of the Rust: what it comes to, and what its cipher was asked on the way.

use std::net::SocketAddr;
use std::time::Duration;

use chacha20poly1305::watch::{self, Asked};
use oracle::lives::{
    caught, output, process_packet, Answer, NetcodeError, NetcodeServer, ServerResult,
    TokenGenerationError,
};

use crate::call::Call;

/// What a call comes to, with document 01's number in the place of an error.
#[derive(Debug, Clone, PartialEq, Eq)]
pub enum Outcome {
    Refused(u8),
    Nothing,
    Send {
        to: SocketAddr,
        packet: Vec<u8>,
    },
    Payload {
        id: u64,
        start: usize,
        bytes: Vec<u8>,
    },
    Connected {
        id: u64,
        slot: usize,
        to: SocketAddr,
        user_data: Box<[u8; 256]>,
        packet: Vec<u8>,
    },
    /// Without a packet, the number is 15 or 24 where that is why.
    Ended {
        id: u64,
        to: SocketAddr,
        packet: Option<Vec<u8>>,
        number: u8,
    },
}

/// An ask, and where its part starts in the datagram or the output; none where the Rust works on a copy.
#[derive(Debug, Clone)]
pub struct Ask {
    pub asked: Asked,
    pub start: Option<usize>,
}

pub struct Heard {
    pub asks: Vec<Ask>,
    /// None for a panic.
    pub outcome: Option<Outcome>,
    /// The datagram as the call left it.
    pub datagram: Vec<u8>,
}

/// Runs the call; the ask of number `refused` gets a no.
pub fn hear(server: &mut NetcodeServer, call: &Call, refused: Option<usize>) -> Heard {
    let mut datagram = match call {
        Call::Datagram { bytes, .. } => bytes.clone(),
        _ => Vec::new(),
    };
    watch::refuse_at(refused);
    watch::start();
    let answer = caught(|| run(server, call, &mut datagram));
    let asked = watch::take();
    watch::refuse_at(None);
    let buffers = [
        (datagram.as_ptr() as usize, datagram.len()),
        (output(server), 1400),
    ];
    let asks: Vec<Ask> = asked
        .into_iter()
        .map(|asked| placed(asked, &buffers))
        .collect();
    let outcome = match answer {
        Answer::Is(Ok(outcome)) => Some(outcome),
        Answer::Is(Err(error)) => Some(Outcome::Refused(number(&error, &asks))),
        Answer::Panicked { .. } => None,
    };
    Heard {
        outcome: outcome.map(|outcome| completed(outcome, refused, &asks)),
        asks,
        datagram,
    }
}

/// With what the Rust's own answer does not say: 24 where a record ends without its packet because the host said no, and the slot,
/// which stands in the first keep-alive.
fn completed(mut outcome: Outcome, refused: Option<usize>, asks: &[Ask]) -> Outcome {
    match &mut outcome {
        Outcome::Ended {
            packet: None,
            number,
            ..
        } if refused.is_some() => *number = 24,
        Outcome::Connected { slot, .. } => {
            let keep_alive = &asks.last().expect("a keep-alive was sealed").asked.text;
            let index = keep_alive[..4].try_into().expect("four bytes");
            *slot = u32::from_le_bytes(index) as usize;
        }
        _ => {}
    }
    outcome
}

fn placed(asked: Asked, buffers: &[(usize, usize)]) -> Ask {
    let within = |(at, len): &(usize, usize)| {
        let start = asked.place.checked_sub(*at)?;
        (start + asked.text.len() <= *len).then_some(start)
    };
    let start = buffers.iter().find_map(within);
    Ask { asked, start }
}

fn run(
    server: &mut NetcodeServer,
    call: &Call,
    datagram: &mut [u8],
) -> Result<Outcome, NetcodeError> {
    match call {
        Call::Update { secs, nanos } => {
            server.update(whole(*secs, *nanos).expect("a step that the Rust has"));
            Ok(Outcome::Nothing)
        }
        Call::SetMaxClients(limit) => {
            server.set_max_clients(*limit as usize);
            Ok(Outcome::Nothing)
        }
        Call::Datagram { from, .. } => {
            let at = datagram.as_ptr() as usize;
            process_packet(server, *from, datagram).map(|result| outcome(result, at))
        }
        Call::Payload { id, bytes } => {
            let (to, packet) = server.generate_payload_packet(*id, bytes)?;
            let packet = packet.to_vec();
            Ok(Outcome::Send { to, packet })
        }
        Call::UpdateClient { id } => Ok(outcome(server.update_client(*id), 0)),
        Call::Disconnect { id } => Ok(outcome(server.disconnect(*id), 0)),
        Call::Query { .. } | Call::Poke(_) | Call::Misuse => Ok(Outcome::Nothing),
    }
}

/// A step of the clock, where the Rust has such a time.
pub fn whole(secs: u64, nanos: u64) -> Option<Duration> {
    let secs = secs.checked_add(nanos / 1_000_000_000)?;
    Some(Duration::new(secs, (nanos % 1_000_000_000) as u32))
}

fn outcome(result: ServerResult, datagram: usize) -> Outcome {
    match result {
        ServerResult::None => Outcome::Nothing,
        ServerResult::PacketToSend { addr, payload } => Outcome::Send {
            to: addr,
            packet: payload.to_vec(),
        },
        ServerResult::Payload { client_id, payload } => Outcome::Payload {
            id: client_id,
            start: payload.as_ptr() as usize - datagram,
            bytes: payload.to_vec(),
        },
        ServerResult::ClientConnected {
            client_id,
            addr,
            user_data,
            payload,
        } => Outcome::Connected {
            id: client_id,
            slot: 0,
            to: addr,
            user_data,
            packet: payload.to_vec(),
        },
        ServerResult::ClientDisconnected {
            client_id,
            addr,
            payload,
        } => Outcome::Ended {
            id: client_id,
            to: addr,
            packet: payload.map(|packet| packet.to_vec()),
            number: 0,
        },
    }
}

/// Document 01's number of the Rust's error. Of a token that cannot be read the host says no.
fn number(error: &NetcodeError, asks: &[Ask]) -> u8 {
    match error {
        NetcodeError::PacketTooSmall => 1,
        NetcodeError::InvalidPacketType => 2,
        NetcodeError::UnavailablePrivateKey => 3,
        NetcodeError::DuplicatedSequence => 6,
        NetcodeError::CryptoError if asks.last().is_some_and(|ask| ask.asked.seal) => 24,
        NetcodeError::CryptoError => 8,
        NetcodeError::TokenGenerationError(
            TokenGenerationError::CryptoError | TokenGenerationError::IoError(_),
        ) => 8,
        NetcodeError::IoError(_) => 9,
        NetcodeError::InvalidVersion => 10,
        NetcodeError::InvalidProtocolID => 11,
        NetcodeError::Expired => 12,
        NetcodeError::NotInHostList => 13,
        NetcodeError::PayloadAboveLimit => 21,
        NetcodeError::ClientNotFound => 22,
        _ => 0,
    }
}
