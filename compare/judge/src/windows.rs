//! Drawn windows, which must fit a sequence to be worth trying with it.

use crate::case::{Window, EMPTY};
use crate::make::{advance, reached, FRESH};
use crate::rng::Rng;

/// A window with which this sequence can go either way.
pub fn draw(rng: &mut Rng, sequence: u64) -> Box<Window> {
    match rng.below(10) {
        0..2 => Box::new(FRESH),
        2..5 => few(rng, sequence),
        5..7 => reached(rng.near(sequence, 300), 1 + rng.below(4)),
        _ => made_up(rng, sequence),
    }
}

/// Some arrivals around the sequence, in any order.
fn few(rng: &mut Rng, sequence: u64) -> Box<Window> {
    let mut window = Box::new(FRESH);
    for _ in 0..1 + rng.below(8) {
        let arrival = match rng.below(4) {
            0 => sequence,
            1 => rng.near(sequence, 3),
            2 => rng.near(sequence, 260),
            _ => sequence
                .wrapping_add(256 * (rng.next() % 3))
                .wrapping_sub(256),
        };
        advance(&mut window, arrival);
    }
    window
}

/// Words that no run of arrivals leaves: the highest anywhere, places of another remainder.
fn made_up(rng: &mut Rng, sequence: u64) -> Box<Window> {
    let mut window = Box::new(FRESH);
    let filled = if rng.one_in(8) { 256 } else { rng.below(12) };
    for _ in 0..filled {
        window[1 + rng.below(256)] = word(rng, sequence);
    }
    if rng.one_in(2) {
        window[1 + (sequence % 256) as usize] = word(rng, sequence);
    }
    window[0] = match rng.below(6) {
        0 => 0,
        1 => EMPTY,
        2 => sequence.saturating_add(256),
        _ => word(rng, sequence),
    };
    window
}

fn word(rng: &mut Rng, sequence: u64) -> u64 {
    match rng.below(8) {
        0 => EMPTY,
        1 => EMPTY - 1,
        2 => sequence,
        3 => rng.near(sequence, 2),
        4 => rng.near(sequence, 300),
        5 => sequence.wrapping_add(256),
        6 => rng.number(),
        _ => 0,
    }
}
