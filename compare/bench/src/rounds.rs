//! Rounds in which both sides do the same work one after the other, so that what else the machine
//! does falls on both.

use std::time::Instant;

/// Of `compare`, each round of which is long.
const ROUNDS: usize = 31;
/// Of `compare_on`, most rounds of which take under a millisecond, so that what else the machine does spoils few.
const SHORT_ROUNDS: usize = 151;

/// One line of the table: nanoseconds a call of both sides, round by round.
pub struct Row {
    pub name: String,
    rust: Vec<f64>,
    ours: Vec<f64>,
}

/// What a row comes to.
pub struct Figures {
    pub rust: f64,
    pub ours: f64,
    /// Of the rounds' ratios: least, lower quartile, median, upper quartile, most.
    pub ratios: [f64; 5],
}

/// Times `calls` calls of each side a round.
pub fn compare(name: &str, calls: usize, mut rust: impl FnMut(), mut ours: impl FnMut()) -> Row {
    let rounds = |round: usize| match round % 2 {
        0 => (time(&mut rust), time(&mut ours)),
        _ => swapped((time(&mut ours), time(&mut rust))),
    };
    Row::new(name, calls, (0..=ROUNDS).map(rounds))
}

/// The same where each round has an input, made beforehand, and each side says how many nanoseconds it took.
pub fn compare_on<T: Clone>(
    name: &str,
    calls: usize,
    mut input: impl FnMut() -> T,
    mut rust: impl FnMut(T) -> f64,
    mut ours: impl FnMut(T) -> f64,
) -> Row {
    let rounds = |round: usize| {
        let for_ours = input();
        let for_rust = for_ours.clone();
        match round % 2 {
            0 => (rust(for_rust), ours(for_ours)),
            _ => swapped((ours(for_ours), rust(for_rust))),
        }
    };
    Row::new(name, calls, (0..=SHORT_ROUNDS).map(rounds))
}

/// Every second round ours goes first.
fn swapped((ours, rust): (f64, f64)) -> (f64, f64) {
    (rust, ours)
}

/// The nanoseconds that the work takes.
pub fn time(mut work: impl FnMut()) -> f64 {
    let start = Instant::now();
    work();
    start.elapsed().as_nanos() as f64
}

/// The value at so many quarters of the way from the least to the most.
fn quarter(values: &[f64], quarters: usize) -> f64 {
    let mut sorted = values.to_vec();
    sorted.sort_by(f64::total_cmp);
    sorted[(sorted.len() - 1) * quarters / 4]
}

impl Row {
    /// The first round warms up and is not counted.
    fn new(name: &str, calls: usize, rounds: impl Iterator<Item = (f64, f64)>) -> Self {
        let calls = calls as f64;
        let counted = rounds.skip(1);
        let (rust, ours) = counted
            .map(|(rust, ours)| (rust / calls, ours / calls))
            .unzip();
        Self {
            name: name.to_string(),
            rust,
            ours,
        }
    }

    pub fn rounds(&self) -> usize {
        self.rust.len()
    }

    pub fn figures(&self) -> Figures {
        let ratios: Vec<f64> = self
            .ours
            .iter()
            .zip(&self.rust)
            .map(|(ours, rust)| ours / rust)
            .collect();
        Figures {
            rust: quarter(&self.rust, 2),
            ours: quarter(&self.ours, 2),
            ratios: [0, 1, 2, 3, 4].map(|quarters| quarter(&ratios, quarters)),
        }
    }
}

#[cfg(test)]
mod tests {
    use super::*;

    /// The sides' nanoseconds stay with their side, whichever goes first.
    #[test]
    fn a_ratio_is_ours_by_the_rust() {
        let row = compare_on(
            "a call",
            4,
            || 1.0,
            |input| 800.0 * input,
            |input| 400.0 * input,
        );
        let figures = row.figures();
        assert_eq!((figures.rust, figures.ours), (200.0, 100.0));
        assert_eq!(figures.ratios, [0.5; 5]);
        assert_eq!(row.rounds(), SHORT_ROUNDS);
    }

    #[test]
    fn the_first_round_is_not_counted() {
        let rounds = [
            (1.0, 9.0),
            (1.0, 5.0),
            (1.0, 1.0),
            (1.0, 3.0),
            (1.0, 2.0),
            (1.0, 4.0),
        ];
        let row = Row::new("a call", 1, rounds.into_iter());
        assert_eq!(row.figures().ratios, [1.0, 2.0, 3.0, 4.0, 5.0]);
    }
}
