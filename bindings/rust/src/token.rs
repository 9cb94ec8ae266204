use crate::address::Address;
use crate::{NETCODE_KEY_BYTES, NETCODE_USER_DATA_BYTES};

const MAX_ADDRESSES: usize = 32;

const ADDRESS_NONE: u8 = 0;
const ADDRESS_IPV4: u8 = 1;
const ADDRESS_IPV6: u8 = 2;

/// What a private token says, once it is opened.
#[derive(Debug, Clone, PartialEq, Eq)]
pub struct PrivateConnectToken {
    pub client_id: u64,
    pub timeout_seconds: i32,
    pub client_to_server_key: [u8; NETCODE_KEY_BYTES],
    pub server_to_client_key: [u8; NETCODE_KEY_BYTES],
    pub user_data: [u8; NETCODE_USER_DATA_BYTES],
    /// Three words for each address, one after the other.
    words: [u64; 3 * MAX_ADDRESSES],
    len: usize,
}

/// The rest of a token's bytes.
struct Source<'b>(&'b [u8]);

impl Source<'_> {
    fn take<const N: usize>(&mut self) -> Option<[u8; N]> {
        let (taken, rest) = self.0.split_first_chunk()?;
        self.0 = rest;
        Some(*taken)
    }
}

impl PrivateConnectToken {
    pub const NONE: Self = Self {
        client_id: 0,
        timeout_seconds: 0,
        client_to_server_key: [0; NETCODE_KEY_BYTES],
        server_to_client_key: [0; NETCODE_KEY_BYTES],
        user_data: [0; NETCODE_USER_DATA_BYTES],
        words: [0; 3 * MAX_ADDRESSES],
        len: 0,
    };

    pub fn server_addresses(&self) -> &[u64] {
        &self.words[..self.len]
    }

    /// Reads as renetcode's `token.rs` does: a count over 32 counts as 32, a kind of 0 takes one byte and stands for no address, and
    /// only an unknown kind makes the bytes no token.
    pub fn read(bytes: &[u8]) -> Option<Self> {
        let mut src = Source(bytes);
        let mut token = Self::NONE;
        token.client_id = u64::from_le_bytes(src.take()?);
        token.timeout_seconds = i32::from_le_bytes(src.take()?);
        token.read_server_addresses(&mut src)?;
        token.client_to_server_key = src.take()?;
        token.server_to_client_key = src.take()?;
        token.user_data = src.take()?;
        Some(token)
    }

    fn read_server_addresses(&mut self, src: &mut Source<'_>) -> Option<()> {
        let count = u32::from_le_bytes(src.take()?) as usize;
        for _ in 0..count.min(MAX_ADDRESSES) {
            let [kind] = src.take()?;
            let (kind, ip) = match kind {
                ADDRESS_IPV4 => {
                    let [a, b, c, d] = src.take()?;
                    (4, [a, b, c, d, 0, 0, 0, 0, 0, 0, 0, 0, 0, 0, 0, 0])
                }
                ADDRESS_IPV6 => (6, src.take()?),
                ADDRESS_NONE => continue,
                _ => return None,
            };
            let port = u16::from_le_bytes(src.take()?);
            self.push(&Address { kind, port, ip });
        }
        Some(())
    }

    fn push(&mut self, address: &Address) {
        self.words[self.len..][..3].copy_from_slice(&address.words());
        self.len += 3;
    }
}

#[cfg(test)]
mod tests;
