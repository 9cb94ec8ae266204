//! What a host reads in a private token, with the Rust's `PrivateConnectToken::read` as the model: an unknown
//! kind of address is an error, kind 0 is none, and of more than 32 addresses the first 32 are read.

use crate::datagrams::Token;

const MAX_ADDRESSES: u32 = 32;

/// The bytes not yet read.
struct Reader<'a>(&'a [u8]);

impl Reader<'_> {
    fn array<const N: usize>(&mut self) -> Option<[u8; N]> {
        let (first, rest) = self.0.split_first_chunk::<N>()?;
        self.0 = rest;
        Some(*first)
    }

    /// The three words of an address of so many bytes.
    fn address<const N: usize>(&mut self, kind: u64) -> Option<[u64; 3]> {
        let mut bytes = [0; 16];
        bytes[..N].copy_from_slice(&self.array::<N>()?);
        let port = u16::from_le_bytes(self.array()?);
        let word = |at: usize| u64::from_le_bytes(bytes[at..at + 8].try_into().expect("eight"));
        Some([kind << 16 | u64::from(port), word(0), word(8)])
    }

    fn addresses(&mut self) -> Option<Vec<u64>> {
        let count = u32::from_le_bytes(self.array()?);
        let mut words = Vec::new();
        for _ in 0..count.min(MAX_ADDRESSES) {
            match self.array()? {
                [0] => {}
                [1] => words.extend(self.address::<4>(4)?),
                [2] => words.extend(self.address::<16>(6)?),
                _ => return None,
            }
        }
        Some(words)
    }
}

pub fn read_token(bytes: &[u8]) -> Option<Token> {
    let mut reader = Reader(bytes);
    let client_id = u64::from_le_bytes(reader.array()?);
    let timeout_seconds = i32::from_le_bytes(reader.array()?);
    let server_addresses = reader.addresses()?;
    let client_to_server_key = reader.array()?;
    let server_to_client_key = reader.array()?;
    let user_data = reader.array()?;
    Some(Token {
        client_id,
        timeout_seconds,
        server_to_client_key,
        client_to_server_key,
        user_data,
        server_addresses,
    })
}
