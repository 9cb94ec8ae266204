//! renetcode's own client, unchanged, and our server, over UDP on loopback through the proxy. The clock is made up, so that seconds pass
//! quickly and a seed gives the same run.

use std::collections::BTreeMap;
use std::net::UdpSocket;
use std::time::Duration;

use line::book::{Cause, Change};
use line::options::Options;
use line::plant::Plant;
use line::pump::Mode;
use line::road::{Habits, LONGEST_HOLD};
use oracle::DisconnectReason;

const STEP: Duration = Duration::from_millis(5);

const BAD: Habits = Habits {
    loss: 20,
    repeat: 20,
    reorder: 20,
};

const GOOD: Habits = Habits {
    loss: 0,
    repeat: 0,
    reorder: 0,
};

/// The first pump's id.
const PUMP: u64 = 1;

fn plant(pumps: u64, rate: u64, habits: Habits, timeout_seconds: u8) -> Plant {
    let options = Options {
        pumps,
        rate,
        habits,
        seed: 7,
        ..Options::default()
    };
    Plant::new(&options, timeout_seconds).expect("loopback has free ports")
}

/// Steps until it is so, which must be within half a minute of the made-up clock; gives the time that went by.
fn until(plant: &mut Plant, what: &str, so: impl Fn(&Plant) -> bool) -> Duration {
    let start = plant.now();
    while !so(plant) {
        plant.step(STEP).expect("loopback works");
        assert!(plant.now() - start < Duration::from_secs(30), "not {what}");
    }
    plant.now() - start
}

fn wait(plant: &mut Plant, time: Duration) {
    let end = plant.now() + time;
    until(plant, "over", |plant| plant.now() >= end);
}

fn connect(plant: &mut Plant) {
    let all = |plant: &Plant| plant.pumps.iter().all(|pump| pump.is_connected());
    until(plant, "connected", all);
}

fn drain(plant: &mut Plant) {
    plant.silence();
    until(plant, "drained", Plant::is_drained);
}

fn refused(plant: &Plant, pump: usize) -> &BTreeMap<u8, u64> {
    let address = plant.links[pump].far_address();
    &plant.server.book.look(address).refused
}

fn ends(plant: &Plant, pump: usize) -> Vec<Cause> {
    let address = plant.links[pump].far_address();
    let events = plant.server.book.look(address).events.iter();
    let ends = events.filter_map(|event| match event.change {
        Change::Ended(cause) => Some(cause),
        Change::Connected { .. } => None,
    });
    ends.collect()
}

#[test]
fn connects_is_kept_alive_reports_and_leaves() {
    let mut plant = plant(1, 100, BAD, 2);
    plant.pumps[0].mode = Mode::Idle;
    connect(&mut plant);
    wait(&mut plant, Duration::from_secs(10));
    assert!(plant.server.is_connected(PUMP) && plant.pumps[0].is_connected());

    plant.pumps[0].mode = Mode::Reporting;
    until(&mut plant, "done", |plant| {
        plant.pumps[0].record.readings.len() == 200
    });
    drain(&mut plant);
    until(&mut plant, "settled", Plant::is_settled);
    assert!(plant.pumps[0].record.acknowledged.len() > 100);

    let proxy = plant.links[0].near_address();
    plant.pumps[0].disconnect(proxy).expect("loopback works");
    until(&mut plant, "gone", |plant| !plant.server.is_connected(PUMP));
    until(&mut plant, "drained", Plant::is_drained);

    let report = plant.audit();
    assert_eq!(report.faults, []);
    assert_eq!((report.made, report.late), (200, 0));
    assert_eq!(report.counted + report.lost, 200);
    assert!(report.is_good() && report.lost > 0);
    assert_eq!(ends(&plant, 0), [Cause::Pump]);
    // Repeats of readings while it was there, and of its goodbye when it was gone.
    let numbers: Vec<u8> = refused(&plant, 0).keys().copied().collect();
    assert_eq!(numbers, [3, 6]);
}

#[test]
fn falls_silent_and_times_out() {
    let timeout_seconds = 3;
    let mut plant = plant(1, 50, BAD, timeout_seconds);
    connect(&mut plant);
    wait(&mut plant, Duration::from_secs(2));
    plant.silence();
    let gone = |plant: &Plant| !plant.server.is_connected(PUMP);
    let silence = until(&mut plant, "given up", gone);
    // What was still held back may have come during the silence. That it was not too early is for the audit.
    let hold = Duration::from_millis(LONGEST_HOLD);
    let longest = Duration::from_secs(timeout_seconds.into()) + hold + 2 * STEP;
    assert!(silence <= longest, "{silence:?}");
    assert_eq!(ends(&plant, 0), [Cause::Silence]);

    until(&mut plant, "settled", Plant::is_settled);
    let reason = plant.pumps[0].disconnect_reason();
    assert_eq!(reason, Some(DisconnectReason::DisconnectedByServer));
    let report = plant.audit();
    assert_eq!(report.faults, []);
    assert!(report.is_good());
}

#[test]
fn readings_256_behind_are_refused_and_not_missed() {
    let habits = Habits { reorder: 50, ..BAD };
    let mut plant = plant(1, 1000, habits, 5);
    connect(&mut plant);
    wait(&mut plant, Duration::from_secs(3));
    drain(&mut plant);
    let report = plant.audit();
    assert_eq!(report.faults, []);
    assert!(report.late > 0 && report.counted > 1000, "{report:?}");
}

#[test]
fn pumps_and_strangers_are_kept_apart() {
    let mut plant = plant(8, 50, BAD, 5);
    connect(&mut plant);
    let stranger = UdpSocket::bind("127.0.0.1:0").expect("loopback has free ports");
    for datagram in [vec![0x15; 17], vec![0x17; 18], vec![0x15; 18]] {
        let sent = stranger.send_to(&datagram, plant.server.address());
        assert_eq!(sent.expect("loopback works"), datagram.len());
    }
    wait(&mut plant, Duration::from_secs(3));
    drain(&mut plant);
    plant.server.dismiss().expect("loopback works");
    until(&mut plant, "settled", Plant::is_settled);

    let report = plant.audit();
    assert_eq!(report.faults, []);
    assert!(report.is_good());
    let strangers = &plant.server.book.strangers().refused;
    assert_eq!(*strangers, BTreeMap::from([(1, 1), (2, 1), (3, 1)]));
    for (place, pump) in plant.pumps.iter().enumerate() {
        let numbers: Vec<u8> = refused(&plant, place).keys().copied().collect();
        assert_eq!(numbers, [6]);
        assert_eq!(ends(&plant, place), [Cause::Server]);
        let reason = pump.disconnect_reason();
        assert_eq!(reason, Some(DisconnectReason::DisconnectedByServer));
    }
}

#[test]
fn a_good_network_loses_nothing() {
    let mut plant = plant(2, 100, GOOD, 5);
    connect(&mut plant);
    wait(&mut plant, Duration::from_secs(2));
    drain(&mut plant);
    until(&mut plant, "settled", Plant::is_settled);
    let report = plant.audit();
    assert_eq!(report.faults, []);
    assert!(report.counted > 0 && report.counted == report.made);
    for (place, pump) in plant.pumps.iter().enumerate() {
        assert_eq!(pump.record.acknowledged.len(), pump.record.readings.len());
        assert!(refused(&plant, place).is_empty());
    }
}
