use std::time::Duration;

use super::super::{NetcodeServer, ServerAuthentication};
use super::{connection, server, Entries};

pub fn server_at(now: Duration) -> NetcodeServer {
    server(now, ServerAuthentication::Unsecure)
}

/// A server with one client, whose id is 0.
pub fn one_client(
    now: Duration,
    received: Duration,
    sent: Duration,
    timeout: i32,
) -> NetcodeServer {
    let mut server = server_at(now);
    let mut client = connection(0, ([127, 0, 0, 1], 1).into(), 1);
    client.last_packet_received_time = received;
    client.last_packet_send_time = sent;
    client.timeout_seconds = timeout;
    server.clients[0] = Some(client);
    server
}

/// Whether a is before b, from which of two token entries, b's first, makes place for another where all
/// later ones are as late as can be.
pub fn is_before(a: Duration, b: Duration) -> bool {
    let address = ([127, 0, 0, 1], 1).into();
    let time = |place| match place {
        0 => b,
        1 => a,
        _ => Duration::MAX,
    };
    let mut entries = Entries::new((0..2048).map(|place| Some((time(place), address, [0; 16]))));
    let added = (Duration::ZERO, address, [1; 16]);
    assert!(entries.find_or_add(added), "no entry has these bytes");
    let place = entries.all().position(|entry| entry == Some(added));
    match place {
        Some(place @ (0 | 1)) => place == 1,
        other => panic!("the entry was written at {other:?}"),
    }
}
