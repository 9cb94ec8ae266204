//! An address in the forms that a host hands it over in.

use std::net::{IpAddr, SocketAddr};

/// As `netcode_process_packet` takes it; any numbers, an address or not.
#[derive(Debug, Clone, Copy, PartialEq, Eq)]
pub struct Wire {
    pub kind: u8,
    pub port: u16,
    pub ip: [u8; 16],
}

impl From<SocketAddr> for Wire {
    fn from(address: SocketAddr) -> Self {
        let mut ip = [0; 16];
        let kind = match address.ip() {
            IpAddr::V4(four) => {
                ip[..4].copy_from_slice(&four.octets());
                4
            }
            IpAddr::V6(six) => {
                ip = six.octets();
                6
            }
        };
        let port = address.port();
        Self { kind, port, ip }
    }
}

/// As tables and answers have it: kind * 65,536 + port, then two little-endian words.
pub fn three_words(address: SocketAddr) -> [u64; 3] {
    let Wire { kind, port, ip } = address.into();
    let half = |at: usize| u64::from_le_bytes(ip[at..at + 8].try_into().expect("eight bytes"));
    [u64::from(kind) * 65536 + u64::from(port), half(0), half(8)]
}
