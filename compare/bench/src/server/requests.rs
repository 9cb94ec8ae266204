//! Requests of new pumps, each of which takes a pending place and is sent its challenge. One slot is free, since
//! a full house would be denied; after a round the tokens expire and the pending places are free again.

use std::net::SocketAddr;
use std::time::Duration;

use super::line::{known_as, two, Line};
use super::pumps::request;
use super::sides::{Came, Pair, Server, WithIdle, WithSodium, START};
use super::{thousands, SIZES};
use crate::rounds::{compare_on, time, Row};

const CALLS: usize = 64;
const EXPIRE_SECONDS: u64 = 1;
const BETWEEN: Duration = Duration::from_secs(2);
const CHALLENGE: u8 = 2;

type Request = (SocketAddr, Vec<u8>);

/// The nanoseconds that a server takes for them all, each of which must come to a challenge.
fn ask(server: &mut impl Server, mut requests: Vec<Request>) -> f64 {
    let took = time(|| {
        for (addr, request) in &mut requests {
            match server.process_packet(*addr, request) {
                Came::Packet(packet) => assert_eq!(packet[0] & 15, CHALLENGE),
                other => panic!("a good request came to {other:?}"),
            }
        }
    });
    server.update(BETWEEN);
    took
}

fn row<P: Pair>(size: usize) -> Row {
    let Line {
        mut rust, mut ours, ..
    } = Line::<P>::new(size, size - 1);
    let (mut now, mut number) = (START, size);
    let newcomers = || {
        let requests = (number..number + CALLS).map(|number| {
            let (addr, client_id) = known_as(number);
            let ([mut pump, _], _) = two::<P>(now, number, EXPIRE_SECONDS);
            (addr, request(&mut pump, client_id))
        });
        let requests: Vec<Request> = requests.collect();
        now += BETWEEN;
        number += CALLS;
        requests
    };
    compare_on(
        &format!(
            "{} of {} connected, {}",
            thousands(size - 1),
            thousands(size),
            P::CIPHER
        ),
        CALLS,
        newcomers,
        |requests| ask(&mut rust, requests),
        |requests| ask(&mut ours, requests),
    )
}

pub fn rows() -> Vec<Row> {
    SIZES
        .into_iter()
        .flat_map(|size| [row::<WithIdle>(size), row::<WithSodium>(size)])
        .collect()
}
