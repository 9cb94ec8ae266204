//! What is compared after each step: the answer, every buffer, our record and the tables.

use oracle::lives::{self, NetcodeServer};

use super::Pair;
use crate::expect::Step;
use crate::hear::Outcome;
use crate::host::{self, Kind, Said};
use crate::ours::{ENTRIES, PLACE_WORDS};
use crate::queries;

/// An open ask's words in our record.
const STAGE: usize = 11;

/// A challenge token's user data, and held bytes: id, expiry, timeout, send key, receive key, user data.
const USER_DATA: usize = 8;
const HELD_USER_DATA: usize = 84;

impl Pair {
    pub(super) fn compare(&mut self, step: &Step) -> Result<(), String> {
        same("the answer's words", step.words, self.ours.answer)?;
        same("the ask's bytes", step.told, self.ours.told)?;
        if let Some(packet) = &step.packet {
            self.out[..packet.len()].copy_from_slice(packet);
        }
        same("the output", &self.out, &self.ours.out)?;
        same("the datagram", &self.datagram, &self.ours.datagram)?;
        same("the held bytes", &self.held, &self.ours.held)?;
        match &step.state {
            Some(state) => {
                self.shadow.follow(state);
                self.compare_record(state, false)?;
            }
            None => {
                self.shadow.follow(&self.rust);
                self.compare_record(&self.rust, true)?;
            }
        }
        self.steps += 1;
        self.compare_tables(self.steps.is_multiple_of(64))
    }

    pub(super) fn compare_tables(&self, thorough: bool) -> Result<(), String> {
        self.shadow.difference(&self.ours, thorough)
    }

    pub(super) fn compare_record(&self, server: &NetcodeServer, idle: bool) -> Result<(), String> {
        let mut wanted = self.record_of(server);
        if !idle {
            wanted[STAGE..14].copy_from_slice(&self.ours.record[STAGE..14]);
            wanted[22..].copy_from_slice(&self.ours.record[22..]);
            if wanted[STAGE] == 0 {
                return Err("an ask, and our record has none open".into());
            }
        }
        same("our record", wanted, self.ours.record)
    }

    /// Our record as it has to be while no ask is open.
    pub(super) fn record_of(&self, server: &NetcodeServer) -> [u64; 34] {
        let now = server.current_time();
        let mut record = [0; 34];
        record[0] = lives::slots(server) as u64;
        record[1] = (self.ours.pending.len() / PLACE_WORDS) as u64;
        record[2] = ENTRIES as u64;
        record[3] = (self.ours.public.len() / 3) as u64;
        record[4] = u64::from(self.set.secure);
        record[5] = self.set.protocol;
        record[6] = server.max_clients() as u64;
        record[7] = now.as_secs();
        record[8] = u64::from(now.subsec_nanos());
        record[9..11].copy_from_slice(&lives::counters(server));
        let connect_key = if self.set.secure {
            self.set.connect_key
        } else {
            [0; 32]
        };
        let keys = connect_key
            .chunks(8)
            .chain(self.set.challenge_key.chunks(8));
        for (word, eight) in record[14..22].iter_mut().zip(keys) {
            *word = u64::from_le_bytes(eight.try_into().expect("eight bytes"));
        }
        record
    }

    pub(super) fn compare_payload(&self, outcome: &Outcome) -> Result<(), String> {
        let Outcome::Payload { start, bytes, .. } = outcome else {
            return Ok(());
        };
        let ours = &self.ours.datagram[*start..*start + bytes.len()];
        same("the payload", bytes.as_slice(), ours)
    }

    pub(super) fn compare_queries(&self, server: &NetcodeServer, id: u64) -> Result<bool, String> {
        let (rust, panicked) = queries::of_rust(server, id);
        same("the queries", &rust, &queries::of_ours(&self.ours, id)?)?;
        Ok(panicked)
    }

    /// What the held bytes have to be after the host said yes, by what comes next: a challenge keeps the token, a first keep-alive the
    /// challenge's id and user data, and nothing else keeps anything.
    pub(super) fn hold(&mut self, kind: Kind, asked: &Step, said: &Said, next: &Step) {
        let seals = next.words[0] == 2 && host::kind_of(&next.words) == Kind::Seal;
        let prefix = next.packet.as_ref().map_or(0, |packet| packet[0] & 15);
        match kind {
            Kind::Token if seals && prefix == 2 => self.hold_token(said),
            Kind::Open if seals && prefix == 4 => {
                let token = &self.datagram[asked.words[12] as usize..];
                self.held[..8].copy_from_slice(&token[..8]);
                self.held[HELD_USER_DATA..].copy_from_slice(&token[USER_DATA..USER_DATA + 256]);
            }
            _ => {}
        }
    }

    fn hold_token(&mut self, said: &Said) {
        let token = &said.token;
        let expiry = &self.datagram[22..30];
        let fields = [
            &token.client_id.to_le_bytes()[..],
            expiry,
            &token.timeout_seconds.to_le_bytes(),
            &token.server_to_client_key,
            &token.client_to_server_key,
            &token.user_data,
        ];
        self.held.copy_from_slice(&fields.concat());
    }
}

pub(super) fn same<T: PartialEq + std::fmt::Debug>(
    name: &str,
    rust: T,
    ours: T,
) -> Result<(), String> {
    if rust == ours {
        return Ok(());
    }
    let cut = |text: String| text.chars().take(1200).collect::<String>();
    let (rust, ours) = (cut(format!("{rust:?}")), cut(format!("{ours:?}")));
    Err(format!(
        "{name} differs\n  the Rust: {rust}\n  ours:     {ours}"
    ))
}
