//! A life as lines that another program can replay with no Rust beside it: what each call and answer is given, and what must come out, which
//! is the Rust's. Where the Rust has no such case, document 01's number stands there and the tables stay.

use std::fmt::Write;

use crate::addresses::Wire;
use crate::call::{Call, Start};
use crate::expect::Step;
use crate::host::{Kind, Said};
use crate::ours::{Ours, SetUp, BODY_WORDS, ENTRIES, ENTRY_BYTES, PLACE_WORDS};
use crate::queries::Queried;
use crate::shadow::Shadow;
use crate::sys::Words;

mod alone;
mod altered;
mod spoken;

pub use altered::Tables;
pub use spoken::unspoken;

/// Digests are below this.
const MODULUS: u64 = 4_294_967_291;

/// Lines that are kept, or none.
#[derive(Default)]
pub struct Sample {
    pub lines: Option<Vec<String>>,
    given: String,
}

pub fn hex(bytes: &[u8]) -> String {
    if bytes.is_empty() {
        return "-".into();
    }
    bytes.iter().fold(String::new(), |mut text, byte| {
        write!(text, "{byte:02x}").expect("a string takes it");
        text
    })
}

fn hex_words(words: &[u64]) -> String {
    let bytes: Vec<u8> = words.iter().flat_map(|word| word.to_le_bytes()).collect();
    hex(&bytes)
}

pub fn list(words: &[u64]) -> String {
    if words.is_empty() {
        return "-".into();
    }
    let words: Vec<String> = words.iter().map(u64::to_string).collect();
    words.join(",")
}

fn step(digest: u64, word: u64) -> u64 {
    (digest * 31 + (word % (1 << 32)) * 7 + (word >> 32)) % MODULUS
}

fn digest_of(words: impl IntoIterator<Item = u64>) -> u64 {
    words.into_iter().fold(0, step)
}

/// Of the used places: slots in order, pending in any, token entries in order.
pub fn digests(slots: &[u64], pending: &[u64], entries: &[u8]) -> String {
    let slots = used_places(slots).into_iter();
    let slots = digest_of(slots.flat_map(|(i, words)| [vec![i as u64], words].concat()));
    let pending = used_places(pending).into_iter();
    let pending = pending.map(|(_, words)| digest_of(words));
    let pending = pending.fold(0, |sum, one| (sum + one) % MODULUS);
    let used = (0..ENTRIES).filter(|i| entries[*i] != 0);
    let entries = digest_of(used.flat_map(|i| {
        let at = ENTRIES + (ENTRY_BYTES - 1) * i;
        let body = &entries[at..at + ENTRY_BYTES - 1];
        let bytes = body.iter().map(|byte| u64::from(*byte));
        std::iter::once(i as u64).chain(bytes).collect::<Vec<u64>>()
    }));
    format!("{slots} {pending} {entries}")
}

fn digests_of(shadow: &Shadow) -> String {
    digests(&shadow.slots, &shadow.pending, &shadow.entries)
}

/// Id, address and body of each used place.
fn used_places(table: &[u64]) -> Vec<(usize, Vec<u64>)> {
    let n = table.len() / PLACE_WORDS;
    let words = |i: usize| {
        let body = 5 * n + BODY_WORDS * i;
        let mut words = vec![table[n + i]];
        words.extend_from_slice(&table[2 * n + 3 * i..2 * n + 3 * i + 3]);
        words.extend_from_slice(&table[body..body + BODY_WORDS]);
        words
    };
    let used = (0..n).filter(|i| table[*i] != 0);
    used.map(|i| (i, words(i))).collect()
}

/// All that comes out of a call or an answer.
pub fn come_out(words: &Words, told: &[u8], packet: &[u8], digests: &str) -> String {
    let words: Vec<String> = words.iter().map(u64::to_string).collect();
    format!(
        "{} {} {} {digests}",
        words.join(" "),
        hex(told),
        hex(packet)
    )
}

/// All that the queries say, but for the lists.
fn replied(said: &Queried) -> String {
    let [limit, secs, nanos] = said.itself;
    let [first, low, high] = said.address.unwrap_or_default();
    let [since, since_nanos] = said.since.unwrap_or_default();
    format!(
        "{limit} {secs} {nanos} {} {} {first} {low} {high} {since} {since_nanos} {}",
        said.count,
        u8::from(said.connected),
        hex(said.user_data.as_deref().unwrap_or(&[])),
    )
}

impl Sample {
    pub fn on() -> Self {
        Self {
            lines: Some(Vec::new()),
            given: String::new(),
        }
    }

    pub fn is_on(&self) -> bool {
        self.lines.is_some()
    }

    fn push(&mut self, line: String) {
        if let Some(lines) = &mut self.lines {
            lines.push(line);
        }
    }

    /// A server that begins, or, with a number and no tables yet, one that is refused.
    pub fn set_up(
        &mut self,
        start: &Start,
        set: &SetUp,
        public: &[u64],
        number: u8,
        shadow: Option<&Shadow>,
    ) {
        if !self.is_on() {
            return;
        }
        let (slots, pending) = (start.max_clients, start.pending);
        let digests = shadow.map_or("0 0 0".into(), digests_of);
        let line = format!(
            "S {} {} {} {} {} {} {} {slots} {pending} {ENTRIES} {} = {number} {digests}",
            set.secs,
            set.nanos,
            set.max_clients,
            set.protocol,
            u8::from(set.secure),
            hex(&set.connect_key),
            hex(&set.challenge_key),
            hex_words(public),
        );
        self.push(line);
    }

    pub fn call(&mut self, call: &Call) {
        if !self.is_on() {
            return;
        }
        self.given = match call {
            Call::Update { secs, nanos } => format!("U {secs} {nanos}"),
            Call::SetMaxClients(limit) => format!("M {limit}"),
            Call::Datagram { from, bytes } => datagram(&(*from).into(), bytes),
            Call::Payload { id, bytes } => format!("G {id} {}", hex(bytes)),
            Call::UpdateClient { id } => format!("C {id}"),
            Call::Disconnect { id } => format!("D {id}"),
            Call::Query { .. } | Call::Poke(_) | Call::Misuse => String::new(),
        };
    }

    pub fn answer(&mut self, kind: Kind, said: &Said, ours: &Ours) {
        if !self.is_on() {
            return;
        }
        let yes = u8::from(said.granted);
        self.given = match kind {
            Kind::Open if said.granted => format!("O 1 {}", hex(&ours.datagram)),
            Kind::Seal if said.granted => {
                format!("E 1 {}", hex(&ours.out[..ours.answer[13] as usize]))
            }
            Kind::Token => token(yes, said),
            Kind::Open => "O 0 -".into(),
            Kind::Seal => "E 0 -".into(),
        };
    }

    pub fn step(&mut self, step: &Step, shadow: &Shadow) {
        if self.is_on() {
            let packet = step.packet.as_deref().unwrap_or(&[]);
            self.line(&step.words, &step.told, packet, shadow);
        }
    }

    fn line(&mut self, words: &Words, told: &[u8], packet: &[u8], shadow: &Shadow) {
        let out = come_out(words, told, packet, &digests_of(shadow));
        let line = format!("{} = {out}", self.given);
        self.push(line);
    }

    pub fn query(&mut self, id: u64, said: &Queried) {
        if self.is_on() {
            let (ids, slots) = (list(&said.ids), list(&said.slots));
            self.push(format!("Q {id} = {} {ids} {slots}", replied(said)));
        }
    }
}

fn datagram(from: &Wire, bytes: &[u8]) -> String {
    let Wire { kind, port, ip } = from;
    format!("P {kind} {port} {} {}", hex(ip), hex(bytes))
}

fn token(yes: u8, said: &Said) -> String {
    let token = &said.token;
    format!(
        "T {yes} {} {} {} {} {} {}",
        token.client_id,
        token.timeout_seconds as u32,
        hex(&token.server_to_client_key),
        hex(&token.client_to_server_key),
        hex(&token.user_data),
        hex_words(&said.addresses),
    )
}
