//! All cases of a whole server: those tried whole, then drawn ones.

use super::{draw, edges};
use crate::judge::{Found, Judge};
use crate::rng::Rng;

/// A tenth as many cases as of packets are drawn, as of tables.
const SHARE: u64 = 10;

/// Another stream than those of the other cases, which therefore stay what they were.
const SALT: u64 = 0x0073_6572_7665_7273;

/// How many were drawn.
pub fn run(judge: &mut Judge, seed: u64, cases: u64) -> Result<u64, Found> {
    let mut rng = Rng::new(seed ^ SALT);
    edges::run(judge)?;
    let cases = cases / SHARE;
    for _ in 0..cases {
        judge.put(draw::case(&mut rng))?;
    }
    Ok(cases)
}
