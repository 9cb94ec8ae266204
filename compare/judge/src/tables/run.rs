//! All cases of tables and times: those tried whole, then drawn ones.

use super::draw::Draw;
use super::{edges, time_edges};
use crate::judge::{Found, Judge};
use crate::rng::Rng;

/// A tenth as many cases as of packets are drawn, since some have a table of two thousand entries.
const SHARE: u64 = 10;

/// Another stream than that of the packets' cases, which therefore stay what they were.
const SALT: u64 = 0x7461_626C_6573;

pub struct Drawn {
    pub cases: u64,
    pub histories: u64,
}

pub fn run(judge: &mut Judge, seed: u64, cases: u64) -> Result<Drawn, Found> {
    let mut rng = Rng::new(seed ^ SALT);
    edges::run(judge)?;
    time_edges::run(judge)?;
    let cases = cases / SHARE;
    let mut draw = Draw::new(&mut rng);
    for _ in 0..cases {
        draw.put(judge, &mut rng)?;
    }
    let histories = draw.histories;
    Ok(Drawn { cases, histories })
}
