//! Readings received, from pumps drawn at random.

use super::line::{readings, Connected, Draw, Line};
use super::pumps::Datagram;
use super::sides::{Came, Pair, Receive, WithIdle, WithItsOwn, WithSodium};
use super::straight::Straight;
use super::{thousands, READING, SIZES};
use crate::rounds::{compare_on, time, Row};

const CALLS: usize = 1024;

/// The nanoseconds that a server takes for them all; it must hand out each reading, as its pump's.
fn receive(server: &mut impl Receive, mut datagrams: Vec<Datagram>) -> f64 {
    time(|| {
        for datagram in &mut datagrams {
            let came = server.process_packet(datagram.addr, &mut datagram.bytes[..datagram.len]);
            match came {
                Came::Payload { client_id, payload } => {
                    assert_eq!(client_id, datagram.client_id);
                    assert_eq!(payload, READING);
                }
                other => panic!("a good reading came to {other:?}"),
            }
        }
    })
}

fn row<P: Pair>(
    name: &str,
    mut rust: P::Rust,
    mut ours: impl Receive,
    mut pumps: Vec<Connected<P::Pump>>,
) -> Row {
    let mut draw = Draw::new();
    compare_on(
        name,
        CALLS,
        || readings(&mut pumps, &mut draw, CALLS),
        |datagrams| receive(&mut rust, datagrams),
        |datagrams| receive(&mut ours, datagrams),
    )
}

fn drop_in<P: Pair>(size: usize) -> Row {
    let name = format!("{} connected, {}, drop-in", thousands(size), P::CIPHER);
    let Line { rust, ours, pumps } = Line::<P>::new(size, size);
    row::<P>(&name, rust, ours, pumps)
}

fn straight<P: Pair>(size: usize) -> Row {
    let name = format!("{} connected, {}, C", thousands(size), P::CIPHER);
    let Line { rust, pumps, .. } = Line::<P>::new(size, size);
    let ours = Straight::<P::Host>::new(&pumps);
    row::<P>(&name, rust, ours, pumps)
}

pub fn rows() -> Vec<Row> {
    let mut rows = Vec::new();
    for size in SIZES {
        rows.push(drop_in::<WithIdle>(size));
        rows.push(straight::<WithIdle>(size));
        rows.push(drop_in::<WithSodium>(size));
        rows.push(straight::<WithSodium>(size));
        rows.push(drop_in::<WithItsOwn>(size));
    }
    rows
}
