//! Cases of a whole server, the same for both sides: set-up, the clock and the limit moved, the queries.

mod clock_edges;
mod draw;
mod edges;
mod layout;
mod queries;
mod run;
mod shrink;
mod start_edges;
mod starts;
mod updates;

use std::fmt;

pub use layout::lent;
pub use queries::{seat_words, user_bytes, Public, Query, Seat, What};
pub use run::run;
pub use shrink::simpler;
pub use starts::{Lack, Start};
pub use updates::{place_address, waiting_words, Limit, Update, Waiting};

use crate::case::Call;

/// The sorts of open ask, from 1 on; 0 is none.
pub const STAGES: u8 = 9;

/// How the length of what is lent stands to what set-up found.
#[derive(Debug, Clone, Copy, PartialEq, Eq)]
pub enum Fit {
    Fits,
    /// So many words are lent instead.
    Lent(usize),
    /// Set-up found so many places, or addresses, instead.
    Found(usize),
}

impl Fit {
    /// How many places the record says.
    pub fn found(self, places: usize) -> usize {
        match self {
            Fit::Found(found) => found,
            _ => places,
        }
    }

    /// How many words are lent of a table or a list.
    pub fn lent(self, words: usize) -> usize {
        match self {
            Fit::Lent(words) => words,
            _ => words,
        }
    }
}

#[derive(Debug, Clone, PartialEq, Eq)]
pub enum Server {
    Update(Update),
    Limit(Limit),
    Query(Query),
    Public(Public),
    Start(Start),
}

impl Server {
    pub fn call(&self) -> Call {
        match self {
            Server::Update(_) => Call::Update,
            Server::Limit(_) => Call::Limit,
            Server::Query(query) => query.what.call(),
            Server::Public(_) => Call::Addresses,
            Server::Start(_) => Call::SetUp,
        }
    }

    /// Shorter tables and smaller numbers count as less.
    pub fn size(&self) -> usize {
        match self {
            Server::Update(case) => {
                let times = [case.clock, case.step].map(|time| time.words()).concat();
                1000 * case.table.size() + bits(&times) + usize::from(case.stage)
            }
            Server::Limit(case) => bits(&[case.before, case.to]) + usize::from(case.stage),
            Server::Query(case) => 1000 * case.table.size() + bits(&case.now.words()),
            Server::Public(case) => 1000 * case.public.len() + case.room,
            Server::Start(case) => case.size(),
        }
    }
}

fn bits(words: &[u64]) -> usize {
    let bits = words.iter().map(|word| 64 - word.leading_zeros() as usize);
    bits.sum()
}

impl fmt::Display for Fit {
    fn fmt(&self, f: &mut fmt::Formatter<'_>) -> fmt::Result {
        match self {
            Fit::Fits => Ok(()),
            Fit::Lent(words) => write!(f, "; {words} words lent"),
            Fit::Found(places) => write!(f, "; set-up found {places}"),
        }
    }
}

impl fmt::Display for Server {
    fn fmt(&self, f: &mut fmt::Formatter<'_>) -> fmt::Result {
        match self {
            Server::Update(case) => case.fmt(f),
            Server::Limit(case) => case.fmt(f),
            Server::Query(case) => case.fmt(f),
            Server::Public(case) => case.fmt(f),
            Server::Start(case) => case.fmt(f),
        }
    }
}

fn stage_text(stage: u8) -> String {
    match stage {
        0 => String::new(),
        stage => format!("; ask {stage} open"),
    }
}

#[cfg(test)]
mod tests;
