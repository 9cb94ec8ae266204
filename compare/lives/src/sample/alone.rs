//! Calls that the Rust has no case for: what they are given, and the number that is due by document 01. The tables stay.

use oracle::lives::NetcodeServer;

use super::{datagram, hex_words, replied, token, Sample};
use crate::addresses::{three_words, Wire};
use crate::call::{Call, Start};
use crate::host::{Kind, Said};
use crate::misuse::needed;
use crate::ours::{Lent, Ours, SetUp, ENTRY_BYTES, PLACE_WORDS};
use crate::queries;
use crate::shadow::Shadow;

/// How long the output is that a sample's calls are lent, and the list.
const OUT: usize = 1400;
const LIST: usize = 8;

impl Sample {
    /// A limit over the slots, a malformed public address, a start past the clock's range.
    pub fn refused_set_ups(&mut self, start: &Start) {
        let set = SetUp {
            secs: start.secs,
            nanos: u64::from(start.nanos),
            max_clients: start.max_clients,
            protocol: start.protocol,
            secure: start.secure,
            connect_key: start.connect_key,
            challenge_key: [1; 32],
        };
        let public = three_words(start.public[0]);
        let over = SetUp {
            max_clients: start.max_clients + 1,
            ..set.clone()
        };
        let late = SetUp {
            secs: u64::MAX,
            nanos: 1_000_000_000,
            ..set
        };
        self.set_up(start, &over, &public, 23, None);
        self.set_up(start, &late, &[5 * 65536, 0, 0], 19, None);
        self.set_up(start, &late, &public, 20, None);
    }

    fn alone(&mut self, given: &str, number: u64, shadow: &Shadow) {
        let mut words = [0; 14];
        words[1] = number;
        self.given = given.into();
        self.line(&words, &[0; 85], &[], shadow);
    }

    /// Calls that are lent so much of one table, or of the output or the datagram, where all of it is so long.
    fn short(
        &mut self,
        (what, length, whole): (char, usize, usize),
        calls: &[&str],
        number: u64,
        shadow: &Shadow,
    ) {
        self.push(format!("L {what} {length} ="));
        for given in calls {
            self.alone(given, number, shadow);
        }
        self.push(format!("L {what} {whole} ="));
    }

    /// Misuse while an ask of this kind is open, for a datagram if there is one.
    pub fn at_ask(&mut self, kind: Kind, call: &Call, ours: &Ours, shadow: &Shadow) {
        if !self.is_on() {
            return;
        }
        for given in ["U 1 0", "M 1", "G 1 00", "C 1", "D 1"] {
            self.alone(given, 16, shadow);
        }
        if let Call::Datagram { from, bytes } = call {
            self.alone(&datagram(&(*from).into(), bytes), 16, shadow);
        }
        let nobody = token(1, &Said::nobody());
        for other in [Kind::Open, Kind::Token, Kind::Seal] {
            if other != kind {
                self.alone(yes_to(other, &nobody), 18, shadow);
            }
        }
        if kind == Kind::Token {
            let malformed = hex_words(&[5 * 65536, 0, 0]);
            let given = nobody.replace(" -", &format!(" {malformed}"));
            self.alone(&given, 18, shadow);
        }
        let all = [Kind::Open, Kind::Token, Kind::Seal].map(|kind| yes_to(kind, &nobody));
        let slots = ours.lent.slots;
        self.short(('s', slots - PLACE_WORDS, slots), &all, 23, shadow);
        self.short_answers(kind, yes_to(kind, &nobody), &ours.lent, shadow);
    }

    /// Answers that are lent less than the ask was: of the other tables 23, of the rest 18.
    fn short_answers(&mut self, kind: Kind, given: &str, lent: &Lent, shadow: &Shadow) {
        self.short(('p', lent.pending - 1, lent.pending), &[given], 23, shadow);
        if kind == Kind::Token {
            let (entries, public) = (lent.entries, lent.public);
            let [fewer, others] = [entries - ENTRY_BYTES, public - 3];
            self.short(('e', fewer, entries), &[given], 23, shadow);
            self.short(('a', others, public), &[given], 23, shadow);
        }
        self.short(('o', OUT - 1, OUT), &[given], 18, shadow);
        if kind != Kind::Seal {
            let datagram = lent.datagram;
            self.short(('d', datagram - 1, datagram), &[given], 18, shadow);
        }
    }

    /// Misuse with no ask open.
    pub fn at_rest(&mut self, server: &NetcodeServer, ours: &Ours, shadow: &Shadow) {
        if !self.is_on() {
            return;
        }
        let (ip, port) = ([9; 16], 1);
        for given in ["O 1 -", "E 1 -", &token(1, &Said::nobody())] {
            self.alone(given, 17, shadow);
        }
        let [unknown, fifth] = [5, 4].map(|kind| datagram(&Wire { kind, port, ip }, &[0; 18]));
        self.alone(&unknown, 19, shadow);
        self.alone(&fifth, 19, shadow);
        // 23 comes before 14, 14 before 19.
        let Lent { slots, pending, .. } = ours.lent;
        let calls = ["G 1 00", "C 1", "D 1", &unknown];
        self.short(('s', slots - 1, slots), &calls, 23, shadow);
        let calls = ["U 1 0", &unknown];
        self.short(('p', pending - 1, pending), &calls, 23, shadow);
        self.short(('o', OUT - 1, OUT), &[&unknown], 14, shadow);
        for id in server.clients_id() {
            for (call, bytes) in needed(server, id) {
                self.call(&call);
                let given = self.given.clone();
                self.short(('o', bytes - 1, OUT), &[&given], 14, shadow);
            }
        }
        self.short_queries(server, slots);
    }

    /// Queries of another table's length, and lists without room.
    fn short_queries(&mut self, server: &NetcodeServer, slots: usize) {
        let ids = server.clients_id();
        let id = ids.first().copied().unwrap_or(1);
        let said = queries::of_rust(server, id).0;
        let [limit, secs, nanos] = said.itself;
        let refused = [" !23"; 7].concat();
        self.push(format!("L s {} =", slots - 1));
        self.push(format!("Q {id} = {limit} {secs} {nanos}{refused}"));
        self.push(format!("L s {slots} ="));
        if !ids.is_empty() {
            self.push(format!("L l {} =", ids.len() - 1));
            self.push(format!("Q {id} = {} !14 !14", replied(&said)));
            self.push(format!("L l {LIST} ="));
        }
    }
}

/// A yes to an ask of this kind, with the datagram and the output as they stand.
fn yes_to(kind: Kind, nobody: &str) -> &str {
    match kind {
        Kind::Open => "O 1 -",
        Kind::Token => nobody,
        Kind::Seal => "E 1 -",
    }
}
