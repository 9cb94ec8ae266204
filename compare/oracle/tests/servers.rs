#![cfg(not(feature = "idle"))]

use std::iter::empty;
use std::net::SocketAddr;
use std::time::Duration;

use oracle::servers::*;

const SECOND: Duration = Duration::from_secs(1);

fn at(port: u16) -> SocketAddr {
    ([127, 0, 0, 1], port).into()
}

fn record(client_id: u64, port: u16) -> Record {
    Record {
        client_id,
        addr: at(port),
        received: SECOND,
        user_data: [9; 256],
        expiry: 100,
    }
}

#[test]
fn slots_are_given_and_asked() {
    let slots = [None, Some(record(5, 1)), Some(record(5, 2))];
    let server = server_with(3 * SECOND, 7, slots.into_iter(), empty());
    assert_eq!(server.current_time(), 3 * SECOND);
    assert_eq!(server.max_clients(), 7);
    assert_eq!(server.connected_clients(), 2);
    assert_eq!(server.clients_slot(), [1, 2]);
    assert_eq!(server.clients_id(), [5, 5]);
    assert!(server.is_client_connected(5) && !server.is_client_connected(6));
    assert_eq!(server.client_addr(5), Some(at(1)));
    assert_eq!(server.user_data(5), Some([9; 256]));
    let since = server.time_since_last_received_packet(5);
    assert_eq!(since, Some(2 * SECOND));
}

#[test]
fn pending_clients_are_given_and_dropped() {
    let waiting = [record(1, 1), record(2, 2)];
    let mut server = server_with(100 * SECOND, 1, empty(), waiting.into_iter());
    assert_eq!(pending(&server), [at(1), at(2)].into());
    server.update(SECOND - Duration::from_nanos(1));
    assert_eq!(pending(&server).len(), 2);
    server.update(Duration::from_nanos(1));
    assert!(pending(&server).is_empty());
    assert_eq!(caught(|| server.update(Duration::MAX)), panicked());
    assert_eq!(server.current_time(), 101 * SECOND);
}

fn panicked<T>() -> Answer<T> {
    Answer::Panicked {
        buffer: Vec::new(),
        window: None,
    }
}

#[test]
fn a_new_server_is_looked_into() {
    let config = |max_clients| ServerConfig {
        current_time: SECOND,
        max_clients,
        protocol_id: 7,
        public_addresses: vec![at(1)],
        authentication: ServerAuthentication::Secure {
            private_key: [3; 32],
        },
    };
    let server = NetcodeServer::new(config(2));
    let expected = Kept {
        slots: 2,
        entries: 2048,
        used_entries: 0,
        protocol_id: 7,
        connect_key: [3; 32],
        secure: true,
        challenge_key: kept(&server).challenge_key,
        counters: [0, 0],
    };
    assert_eq!(kept(&server), expected);
    assert_eq!(server.addresses(), [at(1)]);
    let made = caught(|| NetcodeServer::new(config(1025)));
    assert!(matches!(made, Answer::Panicked { .. }));
}
