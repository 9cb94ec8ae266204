//! Whole lives of pumps on both servers: `Both` compares after every call.

mod plant;

use std::net::SocketAddr;
use std::time::Duration;

use oracle::raw::Packet;
use oracle::DisconnectReason;
use plant::{ours, Both, Event, Plant, Pump, Setting, HOST};

const MS: fn(u64) -> Duration = Duration::from_millis;
const SEND_RATE: Duration = Duration::from_millis(250);

fn ids(line: &Both) -> Vec<u64> {
    line.standing().ids
}

#[test]
fn a_handshake_and_payloads_both_ways() {
    let mut line = Both::new(&Setting::of(4));
    let mut pump = Pump::new(1);
    let came = pump.connects(&mut line);
    let Event::Came {
        pump: id,
        at,
        user_data,
        ..
    } = came
    else {
        panic!("{came:?}");
    };
    assert_eq!((id, at, user_data), (1, pump.addr, vec![1; 256]));

    for reading in [&b"12.5 mg/kg"[..], b"", &[0xFF; 1300]] {
        let mut packet = pump.reports(reading);
        let event = line.arrived(pump.addr, &mut packet);
        assert!(matches!(&event, Event::Reading { pump: 1, bytes, .. } if bytes == reading));
        let (to, packet) = line.send(1, reading).unwrap();
        assert_eq!(to, pump.addr);
        assert_eq!(pump.reads(packet).as_deref(), Some(reading));
    }
}

/// One request at two servers that are alike: what they send back is sealed under the same key and sequence.
#[test]
fn two_servers_draw_two_challenge_keys() {
    let mut pump = Pump::new(1);
    let request = pump.asks();
    let challenge = || {
        let mut server = netcode::NetcodeServer::new(ours::config(&Setting::of(1)));
        server.arrived(pump.addr, &mut request.clone()).packet()
    };
    let (one, two) = (challenge(), challenge());
    assert_eq!(one[..9], two[..9], "prefix and token sequence");
    assert_ne!(one[9..], two[9..]);
}

#[test]
fn an_unsecure_server_and_a_pump_on_ipv6() {
    let host: SocketAddr = "[fd00::1]:5000".parse().unwrap();
    let mut line = Both::new(&Setting {
        public_addresses: vec![host, HOST.parse().unwrap()],
        key: None,
        ..Setting::of(2)
    });
    let authentication = oracle::ClientAuthentication::Unsecure {
        protocol_id: plant::PROTOCOL,
        client_id: 1,
        server_addr: host,
        user_data: None,
    };
    let mut pump = Pump::new(1);
    pump.client = oracle::NetcodeClient::new(Duration::from_secs(10), authentication).unwrap();
    pump.addr = "[fd00::2]:4000".parse().unwrap();
    pump.connects(&mut line);
    assert_eq!(line.standing().clients[1].addr, Some(pump.addr));
}

#[test]
fn a_repeated_payload_counts_once() {
    let mut line = Both::new(&Setting::of(1));
    let mut pump = Pump::new(1);
    pump.connects(&mut line);
    let sealed = pump.reports(b"one");
    assert_ne!(line.arrived(pump.addr, &mut sealed.clone()), Event::Nothing);
    let mut again = sealed.clone();
    assert_eq!(line.arrived(pump.addr, &mut again), Event::Nothing);
    assert_eq!(line.number(), 6);
    assert_eq!(again, sealed);
}

#[test]
fn a_forgery_leaves_the_buffer_and_shuts_nothing_out() {
    let mut line = Both::new(&Setting::of(1));
    let mut pump = Pump::new(1);
    pump.connects(&mut line);
    let good = pump.reports(&[5; 700]);
    for at in [0, 1, 400, good.len() - 1] {
        let mut forged = good.clone();
        forged[at] ^= 1;
        let before = forged.clone();
        assert_eq!(line.arrived(pump.addr, &mut forged), Event::Nothing);
        assert_eq!(forged, before);
    }
    let event = line.arrived(pump.addr, &mut good.clone());
    assert!(matches!(event, Event::Reading { .. }));
}

#[test]
fn a_keep_alive_is_due_after_250_ms() {
    let mut line = Both::new(&Setting::of(2));
    let mut pump = Pump::new(1);
    pump.connects(&mut line);
    line.step(SEND_RATE - Duration::from_nanos(1));
    assert_eq!(line.turn(1), Event::Nothing);
    line.step(Duration::from_nanos(1));
    let packet = line.turn(1).packet();
    pump.reads(packet);
    assert_eq!(line.turn(1), Event::Nothing);

    let mut alive = pump.due(SEND_RATE).unwrap();
    assert_eq!(line.arrived(pump.addr, &mut alive), Event::Nothing);
    assert_eq!(line.number(), 0);
    assert_eq!(line.standing().clients[1].since, Some(Duration::ZERO));
}

#[test]
fn a_pump_that_is_silent_for_over_its_timeout_is_given_up() {
    let mut line = Both::new(&Setting::of(2));
    let mut pump = Pump::new(1);
    pump.connects(&mut line);
    line.step(Duration::from_secs(15));
    assert!(matches!(line.turn(1), Event::Send { .. }));
    line.step(Duration::from_nanos(1));
    let packet = line.turn(1).packet();
    pump.reads(packet);
    let reason = Some(DisconnectReason::DisconnectedByServer);
    assert_eq!(pump.client.disconnect_reason(), reason);
    assert_eq!(ids(&line), []);
}

#[test]
fn a_timeout_of_0_or_below_never_comes() {
    let mut line = Both::new(&Setting::of(2));
    for (id, timeout) in [(1, 0), (2, -1)] {
        let hosts = vec![HOST.parse().unwrap()];
        let token = plant::token(id, 300, timeout, hosts);
        Pump::with_token(id, token).connects(&mut line);
    }
    line.step(Duration::from_secs(1 << 40));
    assert!(matches!(line.turn(1), Event::Send { .. }));
    assert!(matches!(line.turn(2), Event::Send { .. }));
}

#[test]
fn a_pump_leaves_and_a_pump_is_sent_away() {
    let mut line = Both::new(&Setting::of(3));
    let (mut one, mut two) = (Pump::new(1), Pump::new(2));
    one.connects(&mut line);
    two.connects(&mut line);

    let mut leaving = one.client.disconnect().unwrap().1.to_vec();
    let left = line.arrived(one.addr, &mut leaving);
    let (pump, at) = (1, one.addr);
    let packet = None;
    assert_eq!(left, Event::Left { pump, at, packet });

    assert_eq!(line.send_away(1), Event::Nothing);
    let packet = line.send_away(2).packet();
    two.reads(packet);
    assert!(two.client.is_disconnected());
    assert_eq!(line.turn(2), Event::Nothing);
    assert_eq!(ids(&line), []);
}

#[test]
fn a_full_house_denies() {
    let mut line = Both::new(&Setting::of(1));
    let (mut one, mut two) = (Pump::new(1), Pump::new(2));
    let challenge = two.requests(&mut line);
    one.connects(&mut line);

    // The second has its challenge already, and its response finds no slot.
    two.reads(challenge);
    let mut response = two.asks();
    let denied = line.arrived(two.addr, &mut response).packet();
    two.reads(denied);
    let reason = Some(DisconnectReason::ConnectionDenied);
    assert_eq!(two.client.disconnect_reason(), reason);

    let mut three = Pump::new(3);
    let denied = three.requests(&mut line);
    three.reads(denied);
    assert_eq!(three.client.disconnect_reason(), reason);
    assert_eq!(ids(&line), [1]);
}

#[test]
fn the_limit_moves_and_the_slots_stay() {
    let mut line = Both::new(&Setting::of(2));
    Pump::new(1).connects(&mut line);
    Pump::new(2).connects(&mut line);
    line.limit(1);
    assert_eq!((line.standing().connected, line.standing().limit), (2, 1));

    line.limit(2000);
    assert_eq!(line.standing().limit, 1024);
    let mut three = Pump::new(3);
    let challenge = three.requests(&mut line);
    three.reads(challenge);
    let mut response = three.asks();
    let denied = line.arrived(three.addr, &mut response).packet();
    three.reads(denied);
    assert!(three.client.is_disconnected());

    line.send_away(1);
    Pump::new(4).connects(&mut line);
    assert_eq!(ids(&line), [4, 2]);
    line.limit(0);
    assert_eq!(Pump::new(3).requests(&mut line).len(), 1 + 1 + 16);
}

#[test]
fn a_pump_that_waits_is_dropped_after_its_token_expires() {
    let mut line = Both::new(&Setting::of(2));
    let hosts = vec![HOST.parse().unwrap()];
    let mut pump = Pump::with_token(1, plant::token(1, 5, 15, hosts));
    let challenge = pump.requests(&mut line);
    pump.reads(challenge);
    let response = pump.asks();

    line.step(Duration::from_secs(5));
    let mut again = pump.seals(&Packet::connection_request_from_token(&pump.token), 0);
    assert_eq!(line.arrived(pump.addr, &mut again), Event::Nothing);
    assert_eq!(line.number(), 12);
    line.step(Duration::from_secs(1));
    assert_eq!(
        line.arrived(pump.addr, &mut response.clone()),
        Event::Nothing
    );
    assert_eq!(line.number(), 3);
}

#[test]
fn a_used_token_from_another_address_comes_to_nothing() {
    let mut line = Both::new(&Setting::of(2));
    let mut pump = Pump::new(1);
    let request = pump.asks();
    assert_ne!(
        line.arrived(pump.addr, &mut request.clone()),
        Event::Nothing
    );
    let other = SocketAddr::from(([10, 0, 9, 9], 1));
    assert_eq!(line.arrived(other, &mut request.clone()), Event::Nothing);
    assert_eq!(line.number(), 0, "nothing, and no refusal");
}

/// The response of a pump with a challenge that was made for another: its record keeps its id, its user data are the challenge's. The
/// same id then stands in two slots, and the queries answer for the lower.
#[test]
fn a_challenge_of_another_pump() {
    let mut line = Both::new(&Setting::of(4));
    let mut first = Pump::new(1);
    let mut second = Pump::new(1);
    second.addr = SocketAddr::from(([10, 0, 2, 1], 4000));
    let mut other = Pump::new(2);
    let mut challenge = other.requests(&mut line);
    second.requests(&mut line);
    first.connects(&mut line);

    let key = &other.token.server_to_client_key;
    let read = Packet::decode(&mut challenge, plant::PROTOCOL, Some(key), None);
    let (
        _,
        Packet::Challenge {
            token_sequence,
            token_data,
        },
    ) = read.unwrap()
    else {
        panic!("no challenge");
    };
    let response = Packet::Response {
        token_sequence,
        token_data,
    };
    let mut response = second.seals(&response, 5);
    let came = line.arrived(second.addr, &mut response);
    assert!(matches!(&came, Event::Came { pump: 1, user_data, .. } if *user_data == [2; 256]));
    assert_eq!(ids(&line), [1, 1]);
    assert_eq!(line.standing().clients[1].user_data, Some([1; 256]));
}

#[test]
fn a_challenge_that_is_forged_comes_to_nothing() {
    let mut line = Both::new(&Setting::of(4));
    let mut pump = Pump::new(1);
    let challenge = pump.requests(&mut line);
    let forged = Packet::Response {
        token_sequence: 1,
        token_data: [3; 300],
    };
    let mut forged = pump.seals(&forged, 5);
    assert_eq!(line.arrived(pump.addr, &mut forged), Event::Nothing);
    assert_eq!(line.number(), 8);
    pump.reads(challenge);
    let mut response = pump.asks();
    let came = line.arrived(pump.addr, &mut response);
    assert!(matches!(came, Event::Came { pump: 1, .. }));
}

#[test]
fn a_whole_house_comes_and_goes() {
    let mut line = Both::new(&Setting::of(4));
    let mut pumps: Vec<Pump> = (1..=4).map(Pump::new).collect();
    for pump in &mut pumps {
        pump.connects(&mut line);
        line.step(MS(10));
    }
    for round in 0..40u8 {
        for pump in &mut pumps {
            let mut packet = pump.reports(&[round; 20]);
            let event = line.arrived(pump.addr, &mut packet);
            assert!(matches!(event, Event::Reading { pump: id, .. } if id == pump.id));
        }
        line.step(MS(100));
        for id in ids(&line) {
            line.turn(id);
        }
    }
    line.send_away(2);
    assert_eq!(line.standing().slots, [0, 2, 3]);
}
