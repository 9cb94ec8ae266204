//! The sample: a few small lives that reach, between them, every branch of the list.

use crate::call::Life;
use crate::counts::Counts;
use crate::draw::{Mood, World};
use crate::rng::Rng;
use crate::sample::{unspoken, Sample};
use crate::shrink::{replay, shrink};
use crate::{live, Difference};

/// How many lives are tried, and how many lines are taken.
const TRIED: usize = 400;
const LINES: usize = 2500;
/// How often each branch is wanted.
const TIMES: u64 = 2;

/// The mood of the lives in turn, and how many calls they have.
fn mood(number: usize) -> (Mood, usize) {
    match number % 8 {
        1 if number < 16 => (Mood::Packed, 4),
        1 | 3 | 5 => (Mood::Altered, 120),
        _ => (Mood::Small, 120),
    }
}

/// The sample's lines, and the branches of the list that they do not reach.
pub fn sample(seed: u64) -> Result<(Vec<String>, Vec<&'static str>), Box<Difference>> {
    let mut rng = Rng::new(seed);
    let mut reached = Counts::default();
    let mut lines = refused_set_ups(seed);
    for number in 0..TRIED {
        let (mood, calls) = mood(number);
        let mut counts = Counts::default();
        let mut life = live(World::new(Rng::new(rng.next()), mood), calls, &mut counts)?;
        let wanted = reached.lacking(&counts, TIMES);
        if wanted.is_empty() {
            continue;
        }
        shrink(&mut life, &mut |life| reaches(life, &wanted));
        let mut counts = Counts::default();
        let mut sample = Sample::on();
        if let Some((_, what)) = replay(&life, &mut counts, &mut sample) {
            return Err(Difference::new(life, what));
        }
        let more = sample.lines.unwrap_or_default();
        if lines.len() + more.len() <= LINES {
            lines.extend(more);
            reached.add(&counts);
        }
    }
    let mut missing = reached.missing();
    missing.extend(unspoken(&lines));
    Ok((lines, missing))
}

fn reaches(life: &Life, wanted: &[String]) -> bool {
    let mut counts = Counts::default();
    let equal = replay(life, &mut counts, &mut Sample::default()).is_none();
    equal && wanted.iter().all(|branch| counts.has(branch))
}

/// Set-ups with 23, 19 and 20, before any table is used.
fn refused_set_ups(seed: u64) -> Vec<String> {
    let start = World::new(Rng::new(seed), Mood::Small).start;
    let mut sample = Sample::on();
    sample.refused_set_ups(&start);
    sample.lines.unwrap_or_default()
}
