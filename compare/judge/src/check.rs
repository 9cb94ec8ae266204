//! Runs a case on both sides and compares all that comes out.

mod decode;
mod diff;
mod encode;
pub mod entries;
mod heads;
mod hosts;
pub mod moments;
pub mod servers;
pub mod slots;
mod tokens;
mod windows;

use oracle::calls::Fault;

use crate::case::{Call, Case, Window};
pub use diff::{refused_desk, Diff};

/// What one side did with a call.
#[derive(Debug, Clone, Copy, PartialEq, Eq, PartialOrd, Ord)]
pub enum Did {
    Refused(u8),
    /// Also a yes.
    Done,
    No,
    Panicked,
    /// The Rust has no such input.
    Absent,
    /// Ours ended in something that is no answer.
    Broken,
}

/// What is outside the domain of equality, or a difference that document 01 wants.
#[derive(Debug, Clone, Copy, PartialEq, Eq, PartialOrd, Ord)]
pub enum Class {
    LongCount,
    HighGuarded,
    HighUnguarded,
    ShortPart,
    LongRead,
    HighTest,
    HighAdvance,
    OldAdvance,
    ShortBuffer,
    WideType,
    FewEntries,
    LongNanos,
    OddTimeout,
    ClockEnd,
    PastEnd,
    DueEnd,
    LaterThan,
    UpdateEnd,
    AskOpen,
    OtherLength,
    ShortList,
    StartTables,
    StartLimit,
    StartAddress,
    StartEnd,
    OtherTables,
}

/// What the Rust did with a call of such a class; `changed` is its window, buffer, byte or clock.
#[derive(Debug, Clone, Copy, PartialEq, Eq, PartialOrd, Ord)]
pub struct Beyond {
    pub class: Class,
    pub did: Did,
    pub changed: bool,
}

#[derive(Debug, Clone, PartialEq, Eq)]
pub enum Verdict {
    Equal,
    /// Ours did as document 01 says; the Rust is not asked.
    Outside,
    Different(String),
}

#[derive(Debug)]
pub struct Report {
    /// The packet's type, where the answer has one, or the sort of answer.
    pub kind: Option<u8>,
    pub rust: Did,
    pub ours: Did,
    pub verdict: Verdict,
    pub beyond: Vec<Beyond>,
    /// The Rust's window after a decode in the domain.
    pub window: Option<Box<Window>>,
    /// The place that a token's use was written to.
    pub written: Option<usize>,
}

impl Report {
    fn new(rust: Did, ours: Did, verdict: Verdict) -> Self {
        Self {
            kind: None,
            rust,
            ours,
            verdict,
            beyond: Vec::new(),
            window: None,
            written: None,
        }
    }

    pub fn differs(&self) -> bool {
        matches!(self.verdict, Verdict::Different(_))
    }
}

pub fn check(case: &Case) -> Report {
    match case {
        Case::Prefix { value, sequence } => heads::prefix(*value, *sequence),
        Case::Unprefix { byte } => heads::unprefix(*byte),
        Case::Sequence { source, at, len } => heads::sequence(source, *at, *len),
        Case::Additional { prefix, protocol } => heads::additional(*prefix, *protocol),
        Case::Private { protocol, expiry } => heads::private(*protocol, *expiry),
        Case::Window { window, sequence } => windows::check(window, *sequence),
        Case::Encode(case) => encode::check(case),
        Case::Decode(case) => decode::check(case),
        Case::Challenge(case) => tokens::challenge(case),
        Case::Proof(case) => tokens::proof(case),
        Case::Entries(case) => entries::check(case),
        Case::Slots(case) => slots::check(case),
        Case::Hosts(case) => hosts::check(case),
        Case::Moment(moment) => moments::check(moment),
        Case::Server(case) => servers::check(case),
    }
}

/// Document 01's number for the Rust's error; 255 for one that these calls never give.
pub fn number(call: Call, fault: Fault) -> u8 {
    let seals = matches!(call, Call::Encode | Call::Challenge);
    match fault {
        Fault::PacketTooSmall => 1,
        Fault::InvalidPacketType => 2,
        Fault::UnavailablePrivateKey => 3,
        Fault::DuplicatedSequence => 6,
        Fault::CryptoError if seals => 24,
        Fault::CryptoError => 8,
        Fault::IoError if seals => 14,
        Fault::IoError if call == Call::Sequence => 7,
        Fault::IoError => 9,
        Fault::Other => 255,
    }
}

fn ours_did(number: u64, broken: &Option<String>) -> Did {
    match number {
        _ if broken.is_some() => Did::Broken,
        0 => Did::Done,
        number => Did::Refused(u8::try_from(number).unwrap_or(255)),
    }
}

fn did<T>(call: Call, result: &Result<T, Fault>) -> Did {
    match result {
        Ok(_) => Did::Done,
        Err(fault) => Did::Refused(number(call, *fault)),
    }
}

/// Ours, of a call that answers yes or no, or refuses.
fn answered(number: u8) -> Did {
    match number {
        0 => Did::No,
        1 => Did::Done,
        number => Did::Refused(number),
    }
}

fn yes(is: bool) -> Did {
    if is {
        Did::Done
    } else {
        Did::No
    }
}
