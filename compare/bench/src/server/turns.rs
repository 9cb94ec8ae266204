//! `update_client` over all that are connected, as a program does after each step of the clock.

use std::time::Duration;

use super::line::Line;
use super::sides::{Came, Pair, Server, WithIdle, WithSodium};
use super::{thousands, SIZES};
use crate::rounds::{compare_on, time, Row};

/// Turns a round, in as many passes over all as that takes.
const TURNS: usize = 1024;
const SEND_RATE: Duration = Duration::from_millis(250);
const KEEP_ALIVE: u8 = 4;

/// The clock stands, and nobody is due.
fn nothing_due(server: &mut impl Server, ids: &[u64]) -> f64 {
    time(|| {
        for _ in 0..TURNS / ids.len() {
            for &id in ids {
                match server.update_client(id) {
                    Came::Nothing => {}
                    other => panic!("a turn with nothing due came to {other:?}"),
                }
            }
        }
    })
}

/// Before each pass the clock moves on, which is not counted, and everyone is due.
fn all_due(server: &mut impl Server, ids: &[u64]) -> f64 {
    let mut took = 0.0;
    for _ in 0..TURNS / ids.len() {
        server.update(SEND_RATE);
        took += time(|| {
            for &id in ids {
                match server.update_client(id) {
                    Came::Packet(packet) => assert_eq!(packet[0] & 15, KEEP_ALIVE),
                    other => panic!("a turn with a keep-alive due came to {other:?}"),
                }
            }
        });
    }
    took
}

fn idle_row(size: usize) -> Row {
    let Line {
        mut rust,
        mut ours,
        pumps,
    } = Line::<WithIdle>::new(size, size);
    let ids: Vec<u64> = pumps.iter().map(|of| of.client_id).collect();
    compare_on(
        &format!("{} connected, nothing due", thousands(size)),
        TURNS,
        || (),
        |()| nothing_due(&mut rust, &ids),
        |()| nothing_due(&mut ours, &ids),
    )
}

fn due_row<P: Pair>(size: usize) -> Row {
    let Line {
        mut rust,
        mut ours,
        pumps,
    } = Line::<P>::new(size, size);
    let ids: Vec<u64> = pumps.iter().map(|of| of.client_id).collect();
    compare_on(
        &format!(
            "{} connected, all due for a keep-alive, {}",
            thousands(size),
            P::CIPHER
        ),
        TURNS,
        || (),
        |()| all_due(&mut rust, &ids),
        |()| all_due(&mut ours, &ids),
    )
}

pub fn rows() -> Vec<Row> {
    SIZES
        .into_iter()
        .flat_map(|size| {
            [
                idle_row(size),
                due_row::<WithIdle>(size),
                due_row::<WithSodium>(size),
            ]
        })
        .collect()
}
