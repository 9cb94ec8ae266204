use std::net::{IpAddr, Ipv4Addr, Ipv6Addr, SocketAddr};

/// An address as the library takes it: without flow label and scope.
#[derive(Debug, Clone, Copy, PartialEq, Eq)]
pub struct Address {
    /// 4 or 6.
    pub kind: u8,
    pub port: u16,
    /// IPv4 has four bytes, then zeros.
    pub ip: [u8; 16],
}

impl From<SocketAddr> for Address {
    fn from(addr: SocketAddr) -> Self {
        let port = addr.port();
        match addr.ip() {
            IpAddr::V4(ip) => {
                let [a, b, c, d] = ip.octets();
                let ip = [a, b, c, d, 0, 0, 0, 0, 0, 0, 0, 0, 0, 0, 0, 0];
                Self { kind: 4, port, ip }
            }
            IpAddr::V6(ip) => Self {
                kind: 6,
                port,
                ip: ip.octets(),
            },
        }
    }
}

impl Address {
    /// Kind and port, then the bytes in two words.
    pub fn words(&self) -> [u64; 3] {
        let both = u128::from_le_bytes(self.ip);
        let first = u64::from(self.kind) << 16 | u64::from(self.port);
        [first, both as u64, (both >> 64) as u64]
    }
}

pub fn from_words([first, low, high]: [u64; 3]) -> SocketAddr {
    let ip = (u128::from(high) << 64 | u128::from(low)).to_le_bytes();
    let port = first as u16;
    match first >> 16 {
        4 => SocketAddr::from((Ipv4Addr::new(ip[0], ip[1], ip[2], ip[3]), port)),
        _ => SocketAddr::from((Ipv6Addr::from(ip), port)),
    }
}

#[cfg(test)]
mod tests {
    use super::*;

    /// The library's layout, by its words in `netcode.h`.
    #[test]
    fn an_address_in_words() {
        let four = SocketAddr::from(([1, 2, 3, 4], 0xABCD));
        assert_eq!(Address::from(four).words(), [0x4ABCD, 0x04030201, 0]);
        let six: SocketAddr = "[102:304:506:708:90a:b0c:d0e:f10]:1".parse().unwrap();
        let words = [0x60001, 0x0807060504030201, 0x100F0E0D0C0B0A09];
        assert_eq!(Address::from(six).words(), words);
    }

    #[test]
    fn there_and_back() {
        for text in [
            "0.0.0.0:0",
            "255.254.253.252:65535",
            "[::]:0",
            "[::ffff:1.2.3.4]:7",
        ] {
            let addr: SocketAddr = text.parse().unwrap();
            assert_eq!(from_words(Address::from(addr).words()), addr);
        }
    }

    #[test]
    fn flow_label_and_scope_are_left_out() {
        let plain: SocketAddr = "[fe80::1]:7".parse().unwrap();
        let scoped: SocketAddr = "[fe80::1%3]:7".parse().unwrap();
        assert_ne!(plain, scoped);
        assert_eq!(from_words(Address::from(scoped).words()), plain);
    }
}
