//! Set-up, beside the Rust's `new`.

use oracle::servers::{self as rust, caught, Answer, NetcodeServer};
use oracle::servers::{ServerAuthentication, ServerConfig};
use ours::servers::{self as mine, Config, Record};
use ours::tables::{ENTRY_BYTES, PLACE_WORDS};

use super::{report, Class, Did, Diff, Report};
use crate::servers::{Lack, Start};
use crate::tables::{address_list, given, socket, Address, Time};

/// The sorts of a server that is set up, and of a refusal: why; or which other number it comes before.
pub const OPEN: u8 = 0;
pub const SECURE: u8 = 1;
pub const BEFORE_19: u8 = 2;
pub const BEFORE_20: u8 = 3;
pub const BEFORE_BOTH: u8 = 4;
const LACKS: u8 = 5;

pub const fn lacking(lack: Lack) -> u8 {
    LACKS + lack as u8
}

/// Fills the tables and the record before a set-up, which must take nothing from there.
const STALE: u64 = 0xAAAA_AAAA_AAAA_AAAA;
const STALE_RECORD: Record = [STALE; 34];
const CONNECT_KEY: [u8; 32] = *b"a connect key, no two parts same";
const CHALLENGE_KEY: [u8; 32] = *b"and a challenge key, unlike that";

/// The tables that a set-up is lent.
struct Lent {
    slots: Vec<u64>,
    pending: Vec<u64>,
    entries: Vec<u8>,
}

impl Lent {
    fn stale(case: &Start) -> Self {
        Self {
            slots: vec![STALE; case.slots],
            pending: vec![STALE; case.pending],
            entries: vec![STALE as u8; case.entries],
        }
    }

    fn set_up(&mut self, config: &Config, record: &mut Record, public: &[u64]) -> u8 {
        let Self {
            slots,
            pending,
            entries,
        } = self;
        mine::set_up(record, config, slots, pending, entries, public)
    }

    /// All places are empty after a set-up, and after a refusal all is as it was.
    fn compare(&self, set: bool, diff: &mut Diff) {
        let marked = |len: usize, place: usize| if set { len / place } else { 0 };
        let n = marked(self.slots.len(), PLACE_WORDS);
        emptied("slots", n, STALE, &self.slots, diff);
        let m = marked(self.pending.len(), PLACE_WORDS);
        emptied("pending", m, STALE, &self.pending, diff);
        let k = marked(self.entries.len(), ENTRY_BYTES);
        emptied("entries", k, STALE as u8, &self.entries, diff);
    }
}

pub fn check(case: &Start) -> Report {
    let lacks = case.lacks();
    let mut diff = Diff::default();
    let theirs = theirs(case);
    let mut public = address_list(&case.public);
    public.resize(public.len() + case.over, 0);
    let listed = public.clone();
    let (mut record, mut lent) = (STALE_RECORD, Lent::stale(case));
    let number = lent.set_up(&configuration(case), &mut record, &public);
    diff.table("the public addresses after it", &listed, &public);
    let refusal = lacks.first().map_or(0, |lack| lack.number());
    diff.number("refusal", refusal.into(), number.into());
    let set = lacks.is_empty();
    lent.compare(set, &mut diff);
    match (&theirs, set) {
        (_, false) => diff.words("the record beside a refusal", &[0; 34], &record),
        (Some(Answer::Is(server)), true) => {
            compare(case, server, &record, &mut diff);
            asked(server, &record, &lent.slots, &public, &mut diff);
        }
        _ => diff.fail("the Rust has no such server, or panicked"),
    }
    let class = class(case, &lacks);
    let did = match number {
        0 => Did::Done,
        number => Did::Refused(number),
    };
    let mut report = report(rust_did(&theirs), did, diff, class, false);
    report.kind = Some(sort(case, &lacks));
    report
}

fn rust_did(theirs: &Option<Answer<NetcodeServer>>) -> Did {
    match theirs {
        None => Did::Absent,
        Some(Answer::Is(_)) => Did::Done,
        Some(Answer::Panicked { .. }) => Did::Panicked,
    }
}

fn configuration(case: &Start) -> Config {
    Config {
        clock: case.clock.words(),
        max_clients: case.limit,
        protocol_id: case.protocol,
        secure: case.secure,
        connect_key: CONNECT_KEY,
        challenge_key: CHALLENGE_KEY,
    }
}

fn key_words(key: &[u8; 32]) -> [u64; 4] {
    let word = |at: usize| key[8 * at..][..8].try_into().expect("eight bytes");
    [0, 1, 2, 3].map(|at| u64::from_le_bytes(word(at)))
}

/// None where it has no such address or time.
fn theirs(case: &Start) -> Option<Answer<NetcodeServer>> {
    let public: Option<Vec<_>> = case.public.iter().map(socket).collect();
    let config = ServerConfig {
        current_time: case.clock.duration()?,
        max_clients: case.limit as usize,
        protocol_id: case.protocol,
        public_addresses: public?,
        authentication: match case.secure {
            false => ServerAuthentication::Unsecure,
            true => ServerAuthentication::Secure {
                private_key: CONNECT_KEY,
            },
        },
    };
    Some(caught(|| NetcodeServer::new(config)))
}

/// So many marks, all 0, and all else as it was.
fn emptied<T: Copy + Into<u64> + PartialEq + From<u8>>(
    what: &str,
    marks: usize,
    stale: T,
    table: &[T],
    diff: &mut Diff,
) {
    let expected = |at: usize| if at < marks { T::from(0) } else { stale };
    let wrong = (0..table.len()).find(|at| table[*at] != expected(*at));
    if let Some(at) = wrong {
        let expected: u64 = expected(at).into();
        diff.number(
            &format!("{what} after it, at {at}"),
            expected,
            table[at].into(),
        );
    }
}

/// The record, word by word.
fn compare(case: &Start, server: &NetcodeServer, record: &Record, diff: &mut Diff) {
    let kept = rust::kept(server);
    let clock = Time::from(server.current_time());
    let mut expected = [0; 34];
    expected[mine::SLOTS] = (case.slots / PLACE_WORDS) as u64;
    expected[mine::PENDING] = (case.pending / PLACE_WORDS) as u64;
    expected[mine::ENTRIES] = (case.entries / ENTRY_BYTES) as u64;
    expected[mine::ADDRESSES] = server.addresses().len() as u64;
    expected[mine::SECURE] = kept.secure.into();
    expected[mine::PROTOCOL] = kept.protocol_id;
    expected[mine::LIMIT] = server.max_clients() as u64;
    expected[mine::CLOCK..][..2].copy_from_slice(&clock.words());
    expected[mine::COUNTERS..][..2].copy_from_slice(&kept.counters);
    expected[mine::CONNECT_KEY..][..4].copy_from_slice(&key_words(&kept.connect_key));
    // The Rust draws its challenge key; ours is the caller's.
    expected[mine::CHALLENGE_KEY..][..4].copy_from_slice(&key_words(&CHALLENGE_KEY));
    diff.words("the record", &expected, record);
    let lengths = (kept.slots * PLACE_WORDS, kept.entries * ENTRY_BYTES);
    if case.is_whole() && lengths != (case.slots, case.entries) {
        diff.fail("the Rust has another number of slots or entries");
    }
    if kept.used_entries > 0 || !rust::pending(server).is_empty() {
        diff.fail("the Rust begins with token entries or pending clients");
    }
}

/// The first queries.
fn asked(server: &NetcodeServer, record: &Record, slots: &[u64], public: &[u64], diff: &mut Diff) {
    let count = [3, 0, server.connected_clients() as u64, 0, 0];
    diff.words("connected", &count, &mine::connected_clients(record, slots));
    let clock = Time::from(server.current_time());
    let itself = [server.max_clients() as u64, clock.secs, clock.nanos];
    diff.words("limit and clock", &itself, &mine::itself(record));
    let addresses: Vec<Address> = server.addresses().into_iter().map(given).collect();
    let mut list = vec![0; public.len()];
    let listed = mine::addresses(record, public, &mut list);
    diff.words("addresses", &[3, 0, addresses.len() as u64, 0, 0], &listed);
    diff.words("listed", &address_list(&addresses), &list);
}

fn class(case: &Start, lacks: &[Lack]) -> Option<Class> {
    match lacks.first() {
        Some(Lack::Malformed) => Some(Class::StartAddress),
        Some(Lack::ClockEnd) => Some(Class::StartEnd),
        Some(Lack::OverLimit) => Some(Class::StartLimit),
        Some(_) => Some(Class::StartTables),
        None if !case.clock.is_proper() => Some(Class::LongNanos),
        None if !case.is_whole() => Some(Class::OtherTables),
        None => None,
    }
}

fn sort(case: &Start, lacks: &[Lack]) -> u8 {
    let mut numbers: Vec<u8> = lacks.iter().map(|lack| lack.number()).collect();
    numbers.dedup();
    match (&numbers[..], lacks) {
        ([], _) if case.secure => SECURE,
        ([], _) => OPEN,
        ([_, _, _], _) => BEFORE_BOTH,
        ([_, 19], _) => BEFORE_19,
        ([_, _], _) => BEFORE_20,
        (_, lacks) => lacking(lacks[0]),
    }
}

/// The addresses that a server of the Rust says it has.
pub fn public_addresses(public: &[Address]) -> Vec<Address> {
    let start = Start {
        public: public.to_vec(),
        ..Start::small()
    };
    match theirs(&start) {
        Some(Answer::Is(server)) => server.addresses().into_iter().map(given).collect(),
        _ => panic!("no server of the Rust has these addresses"),
    }
}
