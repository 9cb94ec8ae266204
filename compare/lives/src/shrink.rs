//! A life with as few calls as still show what it was kept for.

use crate::beside::Pair;
use crate::call::{Call, Life, Turn};
use crate::counts::Counts;
use crate::sample::Sample;

/// Runs a life again: what differs and after how many calls, or nothing.
pub fn replay(life: &Life, counts: &mut Counts, sample: &mut Sample) -> Option<(usize, String)> {
    let mut pair = match Pair::begin(&life.start, counts, sample) {
        Ok(pair) => pair,
        Err(what) => return Some((0, what)),
    };
    for (number, turn) in life.turns.iter().enumerate() {
        if let Err(what) = pair.turn(turn, counts, sample) {
            return Some((number + 1, what));
        }
    }
    let all = life.turns.len();
    pair.end().err().map(|what| (all, what))
}

/// Leaves calls out, many at a time and then one by one, while the life stays what is wanted.
pub fn shrink(life: &mut Life, is_wanted: &mut dyn FnMut(&Life) -> bool) {
    let mut chunk = life.turns.len().div_ceil(2).max(1);
    loop {
        let mut end = life.turns.len();
        while end > 0 {
            let start = end.saturating_sub(chunk);
            let mut fewer = life.clone();
            fewer.turns.drain(start..end);
            if is_wanted(&fewer) {
                *life = fewer;
            }
            end = start;
        }
        if chunk == 1 {
            break;
        }
        chunk = chunk.div_ceil(2);
    }
    simplify(life, is_wanted);
}

/// Hosts that do as they should, steps and payloads as small as can be.
fn simplify(life: &mut Life, is_wanted: &mut dyn FnMut(&Life) -> bool) {
    for at in 0..life.turns.len() {
        for change in [honest, agreeing, generous, brief] {
            let mut simpler = life.clone();
            change(&mut simpler.turns[at]);
            if simpler != *life && is_wanted(&simpler) {
                *life = simpler;
            }
        }
    }
}

fn honest(turn: &mut Turn) {
    turn.misuse = false;
}

fn agreeing(turn: &mut Turn) {
    turn.no = None;
}

fn generous(turn: &mut Turn) {
    turn.tight = false;
}

fn brief(turn: &mut Turn) {
    match &mut turn.call {
        Call::Update { secs, nanos } => (*secs, *nanos) = (0, 1),
        Call::Payload { bytes, .. } => bytes.clear(),
        _ => {}
    }
}

/// The smallest life found in which the two still differ, and in what.
pub fn smallest_difference(mut life: Life, what: String) -> (Life, String) {
    let differs = |life: &Life| replay(life, &mut Counts::default(), &mut Sample::default());
    if let Some((calls, _)) = differs(&life) {
        life.turns.truncate(calls);
    }
    shrink(&mut life, &mut |life| differs(life).is_some());
    let what = differs(&life).map_or(what, |(_, what)| what);
    (life, what)
}
