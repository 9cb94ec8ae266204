//! Every refusal that a program can meet, by its number, with the smallest input; a good call after it has none.

mod plant;

use std::panic::{catch_unwind, AssertUnwindSafe};
use std::time::Duration;

use netcode::{NetcodeServer, Refusal, ServerAuthentication, ServerConfig};
use oracle::raw::Packet;
use plant::{Both, Event, Plant, Pump, Setting, HOST, PROTOCOL};

/// A line with pump 1 connected.
fn line() -> (Both, Pump) {
    let mut line = Both::new(&Setting::of(2));
    let mut pump = Pump::new(1);
    pump.connects(&mut line);
    assert_eq!(line.ours.refusal(), None);
    (line, pump)
}

/// The number of a datagram's refusal, where renetcode answers too.
fn number(line: &mut Both, pump: &Pump, mut datagram: Vec<u8>) -> u8 {
    assert_eq!(line.arrived(pump.addr, &mut datagram), Event::Nothing);
    line.number()
}

/// The same where renetcode may panic; the buffer stays.
fn number_alone(line: &mut Both, pump: &Pump, mut datagram: Vec<u8>) -> u8 {
    let before = datagram.clone();
    assert_eq!(line.ours.arrived(pump.addr, &mut datagram), Event::Nothing);
    assert_eq!(datagram, before);
    line.number()
}

fn renetcode_panics(line: &mut Both, pump: &Pump, datagram: &[u8]) -> bool {
    let mut copy = datagram.to_vec();
    let call = || line.theirs.arrived(pump.addr, &mut copy);
    catch_unwind(AssertUnwindSafe(call)).is_err()
}

#[test]
fn of_a_datagram() {
    let (mut line, mut pump) = line();
    let stranger = Pump::new(2);
    let payload = pump.reports(b"good");
    assert_eq!(number(&mut line, &pump, vec![0x15; 17]), 1);
    assert_eq!(number(&mut line, &pump, vec![]), 1);
    assert_eq!(number(&mut line, &pump, vec![0x17; 18]), 2);
    assert_eq!(number(&mut line, &stranger, vec![0x15; 18]), 3);
    assert_eq!(number(&mut line, &pump, vec![0x15; 18]), 8);
    let good = line.arrived(pump.addr, &mut payload.clone());
    assert!(matches!(good, Event::Reading { .. }));
    assert_eq!(line.ours.refusal(), None);
    assert_eq!(number(&mut line, &pump, payload), 6);
    let short = pump.seals(&Packet::Payload(&[0; 7]), 300);
    let mut keep_alive = short.clone();
    keep_alive[0] ^= 1;
    assert_eq!(number(&mut line, &pump, keep_alive), 8);
    assert_eq!(number(&mut line, &pump, short_keep_alive(&pump)), 9);
}

/// A keep-alive with a body of 7 bytes, sealed well.
fn short_keep_alive(pump: &Pump) -> Vec<u8> {
    use netcode::{Cipher, Nonce, Part, Sodium, Terms};
    let mut additional = *b"NETCODE 1.02\0________\x14";
    additional[13..21].copy_from_slice(&PROTOCOL.to_le_bytes());
    let (mut text, mut tag) = ([0; 7], [0; 16]);
    let terms = Terms {
        key: &pump.token.client_to_server_key,
        nonce: Nonce::Packet(&[0, 0, 0, 0, 77, 0, 0, 0, 0, 0, 0, 0]),
        additional: &additional,
    };
    let part = Part {
        text: &mut text,
        tag: &mut tag,
    };
    assert!(Sodium::new().seal(&terms, part));
    [&[0x14, 77][..], &text, &tag].concat()
}

/// The sequence that is too high makes it panic only where overflow is checked.
#[test]
fn of_a_datagram_that_makes_renetcode_panic() {
    let (mut line, pump) = line();
    let nine = [&[0x95][..], &[0; 17]].concat();
    let late = [&[0x85][..], &[0xFF; 8], &[0; 16]].concat();
    let short = [&[0x21][..], &[0; 17]].concat();
    let checked = cfg!(debug_assertions);
    for (datagram, panics, number) in [(nine, true, 4), (late, checked, 5), (short, true, 7)] {
        assert_eq!(renetcode_panics(&mut line, &pump, &datagram), panics);
        assert_eq!(number_alone(&mut line, &pump, datagram), number);
    }
}

#[test]
fn of_a_request() {
    let (mut line, _) = line();
    let mut pump = Pump::new(2);
    let request = pump.asks();
    let changed = |at: usize| {
        let mut bytes = request.clone();
        bytes[at] ^= 1;
        bytes
    };
    assert_eq!(number(&mut line, &pump, request[..1077].to_vec()), 9);
    assert_eq!(number(&mut line, &pump, changed(1)), 10);
    assert_eq!(number(&mut line, &pump, changed(14)), 11);
    assert_eq!(number(&mut line, &pump, changed(54)), 8);
    let elsewhere = plant::token(2, 300, 15, vec!["10.0.0.2:5000".parse().unwrap()]);
    let foreign = Pump::with_token(2, elsewhere).asks();
    assert_eq!(number(&mut line, &pump, foreign), 13);
    line.step(Duration::from_secs(299));
    let event = line.arrived(pump.addr, &mut request.clone());
    assert!(matches!(event, Event::Send { .. }));
    line.step(Duration::from_secs(1));
    assert_eq!(number(&mut line, &pump, request.clone()), 12);
}

#[test]
fn of_sending() {
    let (mut line, _) = line();
    assert!(line.send(1, &[0; 1301]).is_err());
    assert_eq!(line.number(), 21);
    assert!(line.send(2, &[]).is_err());
    assert_eq!(line.number(), 22);
    assert!(line.send(1, &[0; 1300]).is_ok());
    assert_eq!(line.number(), 0);
}

fn config(max_clients: usize) -> ServerConfig {
    ServerConfig {
        current_time: Duration::MAX,
        max_clients,
        protocol_id: 0,
        public_addresses: vec![HOST.parse().unwrap()],
        authentication: ServerAuthentication::Unsecure,
    }
}

#[test]
fn of_set_up() {
    assert_eq!(
        NetcodeServer::try_new(config(1025)).err(),
        Some(Refusal::Tables)
    );
    assert_eq!(
        NetcodeServer::try_new(config(usize::MAX)).err(),
        Some(Refusal::Tables)
    );
    let server = NetcodeServer::try_new(config(1024)).expect("1,024 clients");
    assert_eq!(server.current_time(), Duration::MAX);
    assert!(catch_unwind(|| NetcodeServer::new(config(1025))).is_err());
}

/// Where renetcode has no slot, ours has one that the limit keeps empty.
#[test]
fn no_clients_at_all() {
    let mut line = Both::new(&Setting::of(0));
    let denied = Pump::new(1).requests(&mut line);
    assert_eq!(denied.len(), 17);
}

#[test]
fn numbers_there_and_back() {
    for (place, refusal) in Refusal::ALL.into_iter().enumerate() {
        assert_eq!(usize::from(refusal.number()), place + 1);
        assert_eq!(Refusal::from_number(refusal.number().into()), Some(refusal));
        assert!(refusal.to_string().len() > 10);
    }
    assert_eq!(Refusal::from_number(0), None);
    assert_eq!(Refusal::from_number(25), None);
    assert_eq!(Refusal::from_number(u64::MAX), None);
}
