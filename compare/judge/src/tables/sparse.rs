//! A table told shortly: what its places have in common, and those that have something else.

use std::collections::BTreeMap;
use std::fmt;

/// Drawn tables of so many places at most can be told place by place.
const SHORT: usize = 16;

/// A place of a table, used or not.
pub trait Place: Copy + PartialEq + fmt::Display {
    /// Marked empty, and nothing but zeros.
    const EMPTY: Self;

    /// The place of a table that is drawn as a whole.
    fn drawn(seed: u64, at: usize) -> Self;

    /// The same with less in it.
    fn simpler(&self) -> Vec<Self>;
}

/// What stands in the places that are not named.
#[derive(Debug, Clone, Copy, PartialEq, Eq)]
pub enum Fill<P> {
    Same(P),
    Drawn(u64),
}

#[derive(Debug, Clone, PartialEq, Eq)]
pub struct Sparse<P> {
    pub places: usize,
    pub fill: Fill<P>,
    pub named: BTreeMap<usize, P>,
}

impl<P: Place> Sparse<P> {
    pub fn new(places: usize, fill: Fill<P>) -> Self {
        Self {
            places,
            fill,
            named: BTreeMap::new(),
        }
    }

    pub fn empty(places: usize) -> Self {
        Self::new(places, Fill::Same(P::EMPTY))
    }

    pub fn with(mut self, at: usize, place: P) -> Self {
        self.named.insert(at, place);
        self
    }

    fn at(&self, at: usize) -> P {
        match (self.named.get(&at), self.fill) {
            (Some(place), _) => *place,
            (None, Fill::Same(place)) => place,
            (None, Fill::Drawn(seed)) => P::drawn(seed, at),
        }
    }

    pub fn all(&self) -> Vec<P> {
        (0..self.places).map(|at| self.at(at)).collect()
    }

    /// Shorter to tell counts as less.
    pub fn size(&self) -> usize {
        let drawn = matches!(self.fill, Fill::Drawn(_));
        10_000 * usize::from(drawn) + 10 * self.named.len() + self.places
    }

    /// Changes all places alike, those of a drawn table excepted that are not named.
    pub fn change(&mut self, change: impl Fn(&mut P)) {
        if let Fill::Same(place) = &mut self.fill {
            change(place);
        }
        self.named.values_mut().for_each(change);
    }

    /// Tables with fewer named places and simpler ones, and with a simpler fill.
    pub fn simpler(&self) -> Vec<Self> {
        let mut tries = Vec::new();
        let mut with = |change: &dyn Fn(&mut Self)| {
            let mut less = self.clone();
            change(&mut less);
            if less != *self {
                tries.push(less);
            }
        };
        for fill in self.fills() {
            with(&|less| less.fill = fill);
        }
        // The same, place by place, so that each can get simpler.
        if self.places <= SHORT && matches!(self.fill, Fill::Drawn(_)) {
            with(&|less| {
                less.fill = Fill::Same(P::EMPTY);
                less.named = self.all().into_iter().enumerate().collect();
                less.named.retain(|_, place| *place != P::EMPTY);
            });
        }
        let fewest = [self.named.len(), 16, 4, 1];
        for (run, at) in fewest.iter().flat_map(|run| {
            let starts = (0..self.named.len()).step_by((*run).max(1));
            starts.map(move |at| (*run, at))
        }) {
            let gone = self.named.keys().copied().skip(at).take(run);
            let gone: Vec<usize> = gone.collect();
            with(&|less| less.named.retain(|place, _| !gone.contains(place)));
        }
        for (at, place) in &self.named {
            for simple in place.simpler() {
                with(&|less| {
                    less.named.insert(*at, simple);
                });
            }
        }
        tries
    }

    fn fills(&self) -> Vec<Fill<P>> {
        let mut fills = vec![P::EMPTY];
        match self.fill {
            Fill::Same(place) => fills.extend(place.simpler()),
            Fill::Drawn(seed) => fills.extend([0, 1, 2, 3].map(|at| P::drawn(seed, at))),
        }
        fills.into_iter().map(Fill::Same).collect()
    }

    /// The same with fewer places, from either end.
    pub fn shorter(&self) -> Vec<Self> {
        let mut tries = Vec::new();
        for cut in [self.places / 2, 16, 4, 1] {
            if 0 < cut && cut < self.places {
                let left = self.places - cut;
                let mut head = self.clone();
                head.places = left;
                head.named.retain(|at, _| *at < left);
                let mut tail = head.clone();
                let named = self.named.iter().filter(|(at, _)| **at >= cut);
                tail.named = named.map(|(at, place)| (at - cut, *place)).collect();
                tries.push(head);
                tries.push(tail);
            }
        }
        tries
    }
}

impl<P: Place> fmt::Display for Sparse<P> {
    fn fmt(&self, f: &mut fmt::Formatter<'_>) -> fmt::Result {
        write!(f, "{} places, ", self.places)?;
        match self.fill {
            Fill::Same(place) => write!(f, "each {place}")?,
            Fill::Drawn(seed) => write!(f, "drawn by {seed:x}")?,
        }
        for (at, place) in &self.named {
            write!(f, ", {at}: {place}")?;
        }
        Ok(())
    }
}
