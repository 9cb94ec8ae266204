//! The rows of the window.

use super::{Case, Sender};
use crate::call::Call;
use crate::hear::Outcome;
use crate::poke::WINDOW;

impl Case<'_> {
    pub fn window_line(&self) -> Option<&'static str> {
        let Call::Datagram { bytes, .. } = &self.turn.call else {
            return None;
        };
        let row = match self.sender() {
            Sender::Connected(row) | Sender::Pending(row) => row,
            Sender::Unknown => return None,
        };
        let count = usize::from(*bytes.first()? >> 4);
        if !(4..=6).contains(&self.kind()?) || count > 8 || bytes.len() < 18 {
            return None;
        }
        let mut sequence = [0; 8];
        sequence[..count].copy_from_slice(&bytes[1..1 + count]);
        window_row(
            u64::from_le_bytes(sequence),
            row.2[WINDOW],
            &self.expected.outcome,
        )
    }
}

fn window_row(sequence: u64, highest: u64, outcome: &Outcome) -> Option<&'static str> {
    let behind = highest.saturating_sub(sequence);
    match outcome {
        Outcome::Refused(5) if sequence == u64::MAX - 255 => Some("window: 2^64-256, refused as 5"),
        Outcome::Refused(5) => Some("window: past 2^64-256, refused as 5"),
        Outcome::Refused(6) if behind == 256 => Some("window: 256 behind, refused"),
        Outcome::Refused(6) if behind > 256 => Some("window: further behind, refused"),
        Outcome::Refused(6) => Some("window: accepted before, refused"),
        Outcome::Refused(8) => Some("window: a no leaves it"),
        Outcome::Refused(9) => Some("window: a short body, and it has moved"),
        Outcome::Refused(_) => None,
        _ if sequence == u64::MAX - 256 => Some("window: 2^64-257, accepted"),
        _ if behind == 255 => Some("window: 255 behind, accepted"),
        _ if behind > 0 => Some("window: behind and new, accepted"),
        _ if sequence > highest => Some("window: above the highest, accepted"),
        _ => Some("window: 0 in a fresh one, accepted"),
    }
}
