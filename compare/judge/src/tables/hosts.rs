//! The addresses of a token beside those of the server.

use std::fmt;

use super::{address_text, words, Address};

#[derive(Debug, Clone, PartialEq, Eq)]
pub struct Hosts {
    /// The token's, 32 at most.
    pub list: Vec<Address>,
    /// The server's.
    pub ours: Vec<Address>,
}

/// Three words an address.
pub fn list(addresses: &[Address]) -> Vec<u64> {
    addresses.iter().flat_map(words).collect()
}

fn text(addresses: &[Address]) -> String {
    let each: Vec<String> = addresses.iter().map(address_text).collect();
    format!("[{}]", each.join(" "))
}

impl fmt::Display for Hosts {
    fn fmt(&self, f: &mut fmt::Formatter<'_>) -> fmt::Result {
        let Self { list, ours } = self;
        write!(
            f,
            " of the token {} of the server {}",
            text(list),
            text(ours)
        )
    }
}
