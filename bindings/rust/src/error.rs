use std::{error, fmt};

use crate::NETCODE_MAX_PAYLOAD_BYTES;

/// The errors that the server's calls return; renetcode's others belong to its client or are only logged.
#[derive(Debug)]
pub enum NetcodeError {
    /// Payload is above the maximum limit.
    PayloadAboveLimit,
    /// Client was not found.
    ClientNotFound,
    /// The packet could not be sealed: the cipher says no, or the client's sequence is spent.
    CryptoError,
}

impl fmt::Display for NetcodeError {
    fn fmt(&self, fmt: &mut fmt::Formatter) -> fmt::Result {
        match self {
            Self::PayloadAboveLimit => write!(
                fmt,
                "payload is above the {NETCODE_MAX_PAYLOAD_BYTES} bytes limit"
            ),
            Self::ClientNotFound => write!(fmt, "client was not found"),
            Self::CryptoError => write!(fmt, "error while encoding or decoding"),
        }
    }
}

impl error::Error for NetcodeError {}
