//! Collects what is not as it should be: the expected value is the Rust's, or document 01's.

use chacha20poly1305::watch::Asked;
use ours::{Ask, Desk, Told};

use super::Verdict;
use crate::case::Window;
use crate::text::{hex, window_text};

#[derive(Debug, Default)]
pub struct Diff(Vec<String>);

impl Diff {
    fn add(&mut self, what: &str, expected: &str, ours: &str) {
        self.0.push(format!(
            "  {what}\n    expected {expected}\n    ours     {ours}"
        ));
    }

    pub fn number(&mut self, what: &str, expected: u64, ours: u64) {
        if expected != ours {
            self.add(what, &number_text(expected), &number_text(ours));
        }
    }

    pub fn bytes(&mut self, what: &str, expected: &[u8], ours: &[u8]) {
        if expected != ours {
            self.add(what, &hex(expected), &hex(ours));
        }
    }

    pub fn window(&mut self, what: &str, expected: Option<&Window>, ours: Option<&Window>) {
        if expected != ours {
            self.add(what, &window_text(expected), &window_text(ours));
        }
    }

    pub fn words(&mut self, what: &str, expected: &[u64], ours: &[u64]) {
        if expected != ours {
            let text = |words: &[u64]| {
                words
                    .iter()
                    .map(|word| number_text(*word) + " ")
                    .collect::<String>()
            };
            self.add(what, &text(expected), &text(ours));
        }
    }

    /// Of long tables, which are of one length, the first place that differs.
    pub fn table<T: Copy + Into<u64> + PartialEq>(
        &mut self,
        what: &str,
        expected: &[T],
        ours: &[T],
    ) {
        if expected == ours {
            return;
        }
        let mut pairs = expected.iter().zip(ours);
        if let Some(at) = pairs.position(|(expected, ours)| expected != ours) {
            let [expected, ours] = [expected, ours].map(|table| number_text(table[at].into()));
            self.add(&format!("{what}, at {at}"), &expected, &ours);
        }
    }

    pub fn broken(&mut self, broken: &Option<String>) {
        if let Some(what) = broken {
            self.add("a nonsense of ours", "none", what);
        }
    }

    /// `start` is where the Rust's part stands in its buffer.
    pub fn ask(&mut self, rust: Option<(&Asked, usize)>, ours: Option<&Ask>) {
        match (rust, ours) {
            (None, None) => {}
            (Some((rust, start)), Some(ours)) => self.same_ask(rust, start, ours),
            (Some(_), None) => self.add("ask", "one", "none"),
            (None, Some(ours)) => self.add("ask", "none", &format!("{ours:?}")),
        }
    }

    fn same_ask(&mut self, rust: &Asked, start: usize, ours: &Ask) {
        self.number("ask: seal", rust.seal.into(), ours.seal.into());
        self.bytes("ask: key", &rust.key, &ours.key);
        self.bytes("ask: nonce", &rust.nonce, &ours.nonce);
        self.bytes("ask: additional data", &rust.additional, &ours.additional);
        self.number("ask: start", start as u64, ours.start as u64);
        self.bytes("ask: text", &rust.text, &ours.text);
        let (expected, given) = (tag(&rust.tag), tag(&ours.tag));
        self.bytes("ask: tag", expected, given);
        self.number("ask: granted", rust.granted.into(), ours.granted.into());
    }

    /// All of what the cipher is told, zeros where there is no ask.
    pub fn told(&mut self, asked: Option<&Asked>, told: &Told) {
        let mut expected = [0; 66];
        if let Some(asked) = asked {
            expected[..32].copy_from_slice(&asked.key);
            expected[32..44].copy_from_slice(&asked.nonce);
            let size = asked.additional.len().min(22);
            expected[44..44 + size].copy_from_slice(&asked.additional[..size]);
        }
        self.bytes("what the cipher is told", &expected, told);
    }

    pub fn desk(&mut self, what: &str, expected: &Desk, ours: &Desk) {
        self.words(what, expected, ours);
    }

    pub fn fail(&mut self, what: &str) {
        self.0.push(format!("  {what}"));
    }

    pub fn verdict(self, otherwise: Verdict) -> Verdict {
        if self.0.is_empty() {
            otherwise
        } else {
            Verdict::Different(self.0.join("\n"))
        }
    }
}

/// Document 01's numbers as it has them, great ones in hex.
fn number_text(number: u64) -> String {
    if number < 100_000 {
        format!("{number}")
    } else {
        format!("0x{number:x}")
    }
}

fn tag(tag: &Option<[u8; 16]>) -> &[u8] {
    tag.as_ref().map_or(&[], |tag| tag)
}

/// A desk that says no and nothing else.
pub fn refused_desk(number: u8) -> Desk {
    let mut desk = [0; 16];
    desk[1] = number.into();
    desk
}
