//! One direction of a link: what becomes of a datagram on the way.

use std::collections::BTreeMap;
use std::time::Duration;

use crate::draw::Draw;

/// The longest that a datagram is held back, in milliseconds.
pub const LONGEST_HOLD: u64 = 400;

/// How many of a hundred datagrams get which fate.
#[derive(Debug, Clone, Copy, PartialEq, Eq)]
pub struct Habits {
    pub loss: u8,
    pub repeat: u8,
    pub reorder: u8,
}

pub struct Road {
    habits: Habits,
    draw: Draw,
    taken: u64,
    held_so_far: u64,
    /// By the time at which they are due, then in the order in which they came.
    held: BTreeMap<(Duration, u64), Vec<u8>>,
}

impl Road {
    pub fn new(habits: Habits, seed: u64) -> Self {
        Self {
            habits,
            draw: Draw::new(seed),
            taken: 0,
            held_so_far: 0,
            held: BTreeMap::new(),
        }
    }

    pub fn take(&mut self, datagram: &[u8], now: Duration) {
        self.taken += 1;
        if self.draw.happens(self.habits.loss) {
            return;
        }
        let overtaken = self.draw.happens(self.habits.reorder);
        self.hold(datagram, now, overtaken);
        if self.draw.happens(self.habits.repeat) {
            for _ in 0..=self.draw.below(2) {
                self.hold(datagram, now, true);
            }
        }
    }

    fn hold(&mut self, datagram: &[u8], now: Duration, back: bool) {
        let hold = if back {
            1 + self.draw.below(LONGEST_HOLD)
        } else {
            0
        };
        let due = now + Duration::from_millis(hold);
        self.held.insert((due, self.held_so_far), datagram.to_vec());
        self.held_so_far += 1;
    }

    pub fn due(&mut self, now: Duration) -> Option<Vec<u8>> {
        let next = self.held.first_entry()?;
        (next.key().0 <= now).then(|| next.remove())
    }

    /// Whether it has seen so many datagrams and holds none of them any more.
    pub fn is_through(&self, sent: u64) -> bool {
        self.taken == sent && self.held.is_empty()
    }
}

#[cfg(test)]
mod tests {
    use super::{Habits, Road, LONGEST_HOLD};
    use std::time::Duration;

    /// What comes out, in its order, of datagrams 0 to 99, which go in a millisecond apart.
    fn pass(loss: u8, repeat: u8, reorder: u8) -> Vec<u8> {
        let habits = Habits {
            loss,
            repeat,
            reorder,
        };
        let mut road = Road::new(habits, 1);
        let mut out = Vec::new();
        for millis in 0..100 + LONGEST_HOLD {
            let now = Duration::from_millis(millis);
            if millis < 100 {
                road.take(&[millis as u8], now);
            }
            while let Some(datagram) = road.due(now) {
                out.extend(datagram);
            }
        }
        assert!(road.is_through(100));
        out
    }

    #[test]
    fn each_habit_does_its_own() {
        let all: Vec<u8> = (0..100).collect();
        assert_eq!(pass(0, 0, 0), all);
        assert_eq!(pass(100, 100, 100), []);

        let lossy = pass(30, 0, 0);
        assert!((50..90).contains(&lossy.len()) && lossy.is_sorted());

        let repeated = pass(0, 100, 0);
        let copies = |n| repeated.iter().filter(|&&other| other == n).count();
        assert!(all.iter().all(|&n| copies(n) == 2 || copies(n) == 3));

        let mut reordered = pass(0, 0, 50);
        assert!(!reordered.is_sorted());
        reordered.sort_unstable();
        assert_eq!(reordered, all);
    }
}
