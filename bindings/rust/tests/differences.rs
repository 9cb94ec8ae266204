//! The rows of the README that a run can show: what renetcode does, and what this crate does instead.

mod plant;

use std::net::SocketAddr;
use std::panic::{catch_unwind, AssertUnwindSafe};
use std::time::Duration;

use netcode::{NetcodeServer, Refusal};
use plant::{ours, theirs, Both, Event, Plant, Pump, Setting, HOST};

fn panics<T>(call: impl FnOnce() -> T) -> bool {
    catch_unwind(AssertUnwindSafe(call)).is_err()
}

#[test]
fn more_than_1024_clients() {
    let setting = Setting::of(1025);
    assert!(panics(|| oracle::NetcodeServer::new(theirs::config(
        &setting
    ))));
    assert!(panics(|| NetcodeServer::new(ours::config(&setting))));
    let refused = NetcodeServer::try_new(ours::config(&setting)).err();
    assert_eq!(refused, Some(Refusal::Tables));
}

#[test]
fn a_clock_past_its_range() {
    let mut line = Both::new(&Setting::of(1));
    let before = line.standing();
    assert!(panics(|| line.theirs.update(Duration::MAX)));
    line.ours.update(Duration::MAX);
    assert_eq!(line.ours.refusal(), Some(Refusal::ClockRange));
    assert_eq!(line.standing(), before);
}

/// Made for no clients, then told to take one.
#[test]
fn a_slot_where_renetcode_has_none() {
    let mut line = Both::new(&Setting::of(0));
    line.limit(1);
    let mut pump = Pump::new(1);
    let challenge = pump.requests(&mut line);
    pump.reads(challenge);
    let response = pump.asks();
    let theirs = line.theirs.arrived(pump.addr, &mut response.clone());
    assert!(matches!(theirs, Event::Send { .. }), "denied");
    let ours = line.ours.arrived(pump.addr, &mut response.clone());
    assert!(matches!(ours, Event::Came { .. }));
}

/// Connected ten seconds before the last time that a clock shows, with a timeout of 15 s.
#[test]
fn a_timeout_past_the_last_time() {
    let mut line = Both::new(&Setting {
        current_time: Duration::MAX - Duration::from_secs(10),
        ..Setting::of(1)
    });
    let token = plant::token(1, u64::MAX - 10, 15, vec![HOST.parse().unwrap()]);
    Pump::with_token(1, token).connects(&mut line);
    assert!(panics(|| line.theirs.turn(1)));
    assert_eq!(line.ours.turn(1), Event::Nothing);
    assert_eq!(line.ours.refusal(), None);
}

#[test]
fn flow_label_and_scope() {
    let scoped: SocketAddr = "[fe80::2%3]:4000".parse().unwrap();
    let plain: SocketAddr = "[fe80::2]:4000".parse().unwrap();
    let setting = Setting::of(1);
    let mut pump = Pump::new(1);
    let request = pump.asks();

    let mut theirs = oracle::NetcodeServer::new(theirs::config(&setting));
    let event = theirs.arrived(scoped, &mut request.clone());
    assert!(matches!(event, Event::Send { to, .. } if to == scoped));
    assert_eq!(theirs.arrived(plain, &mut request.clone()), Event::Nothing);

    let mut ours = NetcodeServer::new(ours::config(&setting));
    for from in [scoped, plain] {
        let event = ours.arrived(from, &mut request.clone());
        assert!(matches!(event, Event::Send { to, .. } if to == plain));
    }
}

/// Renetcode prints its keys.
#[test]
fn debug_shows_no_key() {
    let line = Both::new(&Setting::of(1));
    let key = format!("{:?}", plant::KEY);
    assert!(format!("{:?}", line.theirs).contains(&key));
    let ours = format!("{:?}", line.ours);
    assert_eq!(
        ours,
        "NetcodeServer { current_time: 10s, max_clients: 1, clients_id: [], .. }"
    );
}
