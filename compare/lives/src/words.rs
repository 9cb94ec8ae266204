//! A life in words.

use std::fmt::{self, Display, Formatter};

use crate::call::{Call, Life, Start, Turn};
use crate::poke::Poke;

const KINDS: [&str; 7] = [
    "request",
    "denied",
    "challenge",
    "response",
    "keep-alive",
    "payload",
    "disconnect",
];

/// The first bytes, and how many there are.
fn bytes(bytes: &[u8]) -> String {
    let shown: Vec<String> = bytes
        .iter()
        .take(32)
        .map(|byte| format!("{byte:02x}"))
        .collect();
    let rest = if bytes.len() > 32 { " .." } else { "" };
    format!("{} bytes: {}{rest}", bytes.len(), shown.join(" "))
}

fn datagram(datagram: &[u8]) -> String {
    let Some(prefix) = datagram.first() else {
        return "of no bytes".into();
    };
    let count = usize::from(prefix >> 4);
    let kind = KINDS
        .get(usize::from(prefix & 15))
        .unwrap_or(&"no known type");
    let mut sequence = [0; 8];
    if count <= 8 && datagram.len() > count && prefix & 15 != 0 {
        sequence[..count].copy_from_slice(&datagram[1..1 + count]);
    }
    let sequence = u64::from_le_bytes(sequence);
    format!(
        "{kind}, sequence {sequence} in {count} bytes, {}",
        bytes(datagram)
    )
}

impl Display for Start {
    fn fmt(&self, f: &mut Formatter<'_>) -> fmt::Result {
        let secure = if self.secure {
            "a secure"
        } else {
            "an unsecure"
        };
        write!(
            f,
            "{secure} server of {} slots at {} s {} ns, {} public addresses, an output of {} bytes",
            self.max_clients,
            self.secs,
            self.nanos,
            self.public.len(),
            self.out
        )
    }
}

impl Display for Call {
    fn fmt(&self, f: &mut Formatter<'_>) -> fmt::Result {
        match self {
            Self::Update { secs, nanos } => write!(f, "update by {secs} s {nanos} ns"),
            Self::SetMaxClients(limit) => write!(f, "set_max_clients {limit}"),
            Self::Datagram { from, bytes } => write!(f, "from {from} a {}", datagram(bytes)),
            Self::Payload { id, bytes: payload } => {
                write!(f, "generate_payload_packet for {id}, {}", bytes(payload))
            }
            Self::UpdateClient { id } => write!(f, "update_client {id}"),
            Self::Disconnect { id } => write!(f, "disconnect {id}"),
            Self::Query { id } => write!(f, "all queries, about {id}"),
            Self::Poke(poke) => write!(f, "both sides altered: {poke}"),
            Self::Misuse => write!(f, "calls of ours alone that are refused"),
        }
    }
}

impl Display for Poke {
    fn fmt(&self, f: &mut Formatter<'_>) -> fmt::Result {
        match self {
            Self::Slot { slot, words } => write!(f, "slot {slot}, words {words:?}"),
            Self::Pending { at, words } => write!(f, "pending {at}, words {words:?}"),
            other => write!(f, "{other:?}"),
        }
    }
}

impl Display for Turn {
    fn fmt(&self, f: &mut Formatter<'_>) -> fmt::Result {
        write!(f, "{}", self.call)?;
        if let Some(no) = self.no {
            write!(f, "; the host says no to ask {no}")?;
        }
        if self.misuse {
            write!(f, "; the host misuses the library at each ask")?;
        }
        if self.tight {
            write!(f, "; the output is as long as the packet")?;
        }
        Ok(())
    }
}

impl Display for Life {
    fn fmt(&self, f: &mut Formatter<'_>) -> fmt::Result {
        writeln!(f, "  {}", self.start)?;
        for (number, turn) in self.turns.iter().enumerate() {
            writeln!(f, "  {}. {turn}", number + 1)?;
        }
        Ok(())
    }
}
