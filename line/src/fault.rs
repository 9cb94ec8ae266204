//! What an audit finds wrong.

use std::fmt;

#[derive(Debug, Clone, PartialEq, Eq)]
pub enum Fault {
    Reading {
        pump: u64,
        number: u64,
        wrong: Wrong,
    },
    /// A payload that no pump made.
    Unknown {
        client_id: u64,
        payload: Vec<u8>,
    },
    Connection {
        pump: u64,
        what: &'static str,
    },
}

/// What is wrong with a reading.
#[derive(Debug, Clone, Copy, PartialEq, Eq)]
pub enum Wrong {
    Missing,
    Unexpected,
    Repeated(usize),
    BookedTo(u64),
    AcknowledgedUncounted,
    AcknowledgedTwice,
}

impl fmt::Display for Fault {
    fn fmt(&self, f: &mut fmt::Formatter<'_>) -> fmt::Result {
        match self {
            Self::Reading {
                pump,
                number,
                wrong,
            } => write!(f, "pump {pump}, reading {number}: {wrong}"),
            Self::Unknown { client_id, payload } => {
                write!(
                    f,
                    "booked to {client_id}, and no pump made it: {payload:02x?}"
                )
            }
            Self::Connection { pump, what } => write!(f, "pump {pump}: {what}"),
        }
    }
}

impl fmt::Display for Wrong {
    fn fmt(&self, f: &mut fmt::Formatter<'_>) -> fmt::Result {
        match self {
            Self::Missing => write!(f, "arrived in time and was not counted"),
            Self::Unexpected => write!(f, "counted, and did not arrive in time"),
            Self::Repeated(times) => write!(f, "counted {times} times"),
            Self::BookedTo(client_id) => write!(f, "booked to {client_id}"),
            Self::AcknowledgedUncounted => write!(f, "acknowledged, and not counted"),
            Self::AcknowledgedTwice => write!(f, "acknowledged twice"),
        }
    }
}
