//! The clock moved on with none, some and all of the 4,096 pending places used, and queries of 1,024 connected.

use std::hint::black_box;
use std::time::Duration;

use super::line::{known_as, two, Line};
use super::pumps::request;
use super::sides::{Came, Receive, Server, WithIdle, START};
use super::thousands;
use crate::rounds::{compare_on, time, Row};

const SLOTS: usize = 1024;
const PENDING: usize = 4096;
const CALLS: usize = 250;
const STEP: Duration = Duration::from_millis(1);
const LASTING_SECONDS: u64 = 1_000_000;

/// A request that no response follows.
fn wait(server: &mut impl Receive, number: usize, mut datagram: Vec<u8>) {
    let (addr, _) = known_as(number);
    let came = server.process_packet(addr, &mut datagram);
    assert!(matches!(came, Came::Packet(_)));
}

/// Nobody connected, and so many pending.
fn waiting(pending: usize) -> Line<WithIdle> {
    let mut line = Line::new(SLOTS, 0);
    for number in 0..pending {
        let ([mut pump, _], _) = two::<WithIdle>(START, number, LASTING_SECONDS);
        let datagram = request(&mut pump, known_as(number).1);
        wait(&mut line.rust, number, datagram.clone());
        wait(&mut line.ours, number, datagram);
    }
    line
}

fn step(server: &mut impl Server) {
    for _ in 0..CALLS {
        server.update(black_box(STEP));
    }
}

fn update(pending: usize) -> Row {
    let Line {
        mut rust, mut ours, ..
    } = waiting(pending);
    let (used, places) = (thousands(pending), thousands(PENDING));
    compare_on(
        &format!("update, {used} of {places} pending"),
        CALLS,
        || (),
        |()| time(|| step(&mut rust)),
        |()| time(|| step(&mut ours)),
    )
}

fn count(server: &impl Server) {
    for _ in 0..CALLS {
        assert_eq!(black_box(server).connected_clients(), SLOTS);
    }
}

fn ids(server: &impl Server) {
    for _ in 0..CALLS {
        assert_eq!(black_box(server).clients_id().len(), SLOTS);
    }
}

fn since(server: &impl Server, client_id: u64) {
    for _ in 0..CALLS {
        let since = black_box(server).time_since_last_received_packet(black_box(client_id));
        assert_eq!(since, Some(STEP));
    }
}

/// The same query of both servers.
fn query(name: &str, mut rust: impl FnMut(), mut ours: impl FnMut()) -> Row {
    compare_on(
        &format!("{name} of {}", thousands(SLOTS)),
        CALLS,
        || (),
        |()| time(&mut rust),
        |()| time(&mut ours),
    )
}

pub fn rows() -> Vec<Row> {
    let mut line = Line::<WithIdle>::new(SLOTS, SLOTS);
    line.rust.update(STEP);
    line.ours.update(STEP);
    let Line { rust, ours, pumps } = &line;
    let last = pumps[SLOTS - 1].client_id;
    vec![
        update(0),
        update(64),
        update(PENDING),
        query("connected_clients", || count(rust), || count(ours)),
        query("clients_id", || ids(rust), || ids(ours)),
        query(
            "time_since_last_received_packet, the last",
            || since(rust, last),
            || since(ours, last),
        ),
    ]
}
