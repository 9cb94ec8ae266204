//! Payloads sent, to pumps drawn at random.

use super::line::{Draw, Line};
use super::sides::{Pair, Server, WithIdle, WithSodium};
use super::{thousands, READING, SIZES};
use crate::rounds::{compare_on, time, Row};

const CALLS: usize = 1024;
const PAYLOAD: u8 = 5;

/// The nanoseconds that a server takes for them all, each of which must come to a packet.
fn send(server: &mut impl Server, ids: Vec<u64>) -> f64 {
    time(|| {
        for &id in &ids {
            let packet = server.generate_payload_packet(id, &READING);
            let packet = packet.expect("a connected pump is sent its payload");
            assert_eq!(packet[0] & 15, PAYLOAD);
        }
    })
}

fn row<P: Pair>(size: usize) -> Row {
    let Line {
        mut rust,
        mut ours,
        pumps,
    } = Line::<P>::new(size, size);
    let mut draw = Draw::new();
    compare_on(
        &format!("{} connected, {}", thousands(size), P::CIPHER),
        CALLS,
        || {
            (0..CALLS)
                .map(|_| pumps[draw.below(size)].client_id)
                .collect()
        },
        |ids| send(&mut rust, ids),
        |ids| send(&mut ours, ids),
    )
}

pub fn rows() -> Vec<Row> {
    SIZES
        .into_iter()
        .flat_map(|size| [row::<WithIdle>(size), row::<WithSodium>(size)])
        .collect()
}
