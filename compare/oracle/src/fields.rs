use crate::packet::Packet;

/// A packet in plain numbers and bytes, which a second implementation can give as well.
///
/// | kind | packet     | `a`            | `b`           | `bytes`                              |
/// |------|------------|----------------|---------------|--------------------------------------|
/// | 0    | request    | protocol       | expiry        | version 13, xnonce 24, data 1024     |
/// | 1    | denied     | 0              | 0             | none                                 |
/// | 2    | challenge  | token sequence | 0             | token 300                            |
/// | 3    | response   | token sequence | 0             | token 300                            |
/// | 4    | keep-alive | client index   | max clients   | none                                 |
/// | 5    | payload    | 0              | 0             | the payload                          |
/// | 6    | disconnect | 0              | 0             | none                                 |
#[derive(Debug, Clone, PartialEq, Eq)]
pub struct Fields {
    pub kind: u8,
    pub a: u64,
    pub b: u64,
    pub bytes: Vec<u8>,
}

impl Fields {
    pub(crate) fn of(packet: &Packet) -> Self {
        let (a, b, bytes) = match packet {
            Packet::ConnectionRequest {
                version_info,
                protocol_id,
                expire_timestamp,
                xnonce,
                data,
            } => (
                *protocol_id,
                *expire_timestamp,
                [&version_info[..], xnonce, data].concat(),
            ),
            Packet::Challenge {
                token_sequence,
                token_data,
            }
            | Packet::Response {
                token_sequence,
                token_data,
            } => (*token_sequence, 0, token_data.to_vec()),
            Packet::KeepAlive {
                client_index,
                max_clients,
            } => (
                u64::from(*client_index),
                u64::from(*max_clients),
                Vec::new(),
            ),
            Packet::Payload(payload) => (0, 0, payload.to_vec()),
            Packet::ConnectionDenied | Packet::Disconnect => (0, 0, Vec::new()),
        };
        Self {
            kind: packet.id(),
            a,
            b,
            bytes,
        }
    }

    /// Panics for fields that no packet has, which is a mistake of the harness.
    pub(crate) fn packet(&self) -> Packet<'_> {
        match self.kind {
            0 => self.request(),
            1 => Packet::ConnectionDenied,
            2 => Packet::Challenge {
                token_sequence: self.a,
                token_data: part(&self.bytes),
            },
            3 => Packet::Response {
                token_sequence: self.a,
                token_data: part(&self.bytes),
            },
            4 => Packet::KeepAlive {
                client_index: narrow(self.a),
                max_clients: narrow(self.b),
            },
            5 => Packet::Payload(&self.bytes),
            6 => Packet::Disconnect,
            other => panic!("no packet is of kind {other}"),
        }
    }

    fn request(&self) -> Packet<'_> {
        Packet::ConnectionRequest {
            version_info: part(&self.bytes[..13]),
            protocol_id: self.a,
            expire_timestamp: self.b,
            xnonce: part(&self.bytes[13..37]),
            data: part(&self.bytes[37..]),
        }
    }
}

fn part<const N: usize>(bytes: &[u8]) -> [u8; N] {
    bytes.try_into().expect("as many bytes as the field has")
}

fn narrow(number: u64) -> u32 {
    number.try_into().expect("a number of 32 bits")
}
