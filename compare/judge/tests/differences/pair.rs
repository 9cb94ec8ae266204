//! Two whole servers side by side: the Rust's, by its public functions, and ours with a host, which answers
//! each ask with the same cipher. They have the same challenge key, so that all their bytes can be compared.

use std::net::SocketAddr;
use std::time::Duration;

use oracle::lives::{self, Words};
use oracle::servers::{caught, kept, NetcodeServer, ServerAuthentication, ServerConfig};
use ours::servers::{Config, COUNTERS};
use ours::whole::Whole;

use crate::came::{address, mine, theirs, words_of, Came};
use crate::pumps::{request, response, token, CONNECT_KEY, PROTOCOL, PUBLIC};

/// As many places as the Rust has.
const PENDING: usize = 4096;
const ENTRIES: usize = 2048;

pub struct Pair {
    pub theirs: NetcodeServer,
    pub ours: Whole,
    pub slots: usize,
}

/// What the Rust's came to, and ours.
pub type Both = (Came, Came);

impl Pair {
    /// Secure, at 0 s, with so many slots.
    pub fn new(slots: usize) -> Self {
        Self::with(slots, PENDING, PUBLIC)
    }

    /// Ours with so many pending places; the Rust always has 4,096.
    pub fn with(slots: usize, pending: usize, public: SocketAddr) -> Self {
        let secure = ServerAuthentication::Secure {
            private_key: CONNECT_KEY,
        };
        Self::made(slots, pending, public, secure)
    }

    /// Not secure.
    pub fn unsecure(slots: usize) -> Self {
        Self::made(slots, PENDING, PUBLIC, ServerAuthentication::Unsecure)
    }

    fn made(
        slots: usize,
        pending: usize,
        public: SocketAddr,
        authentication: ServerAuthentication,
    ) -> Self {
        let theirs = NetcodeServer::new(ServerConfig {
            current_time: Duration::ZERO,
            max_clients: slots,
            protocol_id: PROTOCOL,
            public_addresses: vec![public],
            authentication,
        });
        let kept = kept(&theirs);
        let config = Config {
            clock: [0, 0],
            max_clients: slots as u64,
            protocol_id: PROTOCOL,
            secure: kept.secure,
            connect_key: CONNECT_KEY,
            challenge_key: kept.challenge_key,
        };
        let places = [slots, pending, ENTRIES];
        let ours = Whole::new(&config, places, &words_of(public)).expect("fit to be set up");
        Self {
            theirs,
            ours,
            slots,
        }
    }

    pub fn datagram(&mut self, from: SocketAddr, datagram: &[u8]) -> Both {
        (
            self.theirs_alone(from, datagram),
            self.ours_alone(from, datagram),
        )
    }

    pub fn theirs_alone(&mut self, from: SocketAddr, datagram: &[u8]) -> Came {
        let mut buffer = datagram.to_vec();
        theirs(caught(|| {
            self.theirs.process_packet(from, &mut buffer).into()
        }))
    }

    pub fn ours_alone(&mut self, from: SocketAddr, datagram: &[u8]) -> Came {
        let mut buffer = datagram.to_vec();
        let answer = self.ours.process_packet(&address(from), &mut buffer);
        mine(&answer, &self.ours.lent.out, &buffer)
    }

    pub fn payload(&mut self, id: u64, payload: &[u8]) -> Both {
        let rust = theirs(caught(|| {
            self.theirs.generate_payload_packet(id, payload).into()
        }));
        let answer = self.ours.generate_payload_packet(id, payload);
        (rust, mine(&answer, &self.ours.lent.out, &[]))
    }

    pub fn update_client(&mut self, id: u64) -> Both {
        let rust = theirs(caught(|| self.theirs.update_client(id).into()));
        let answer = self.ours.update_client(id);
        (rust, mine(&answer, &self.ours.lent.out, &[]))
    }

    pub fn disconnect(&mut self, id: u64) -> Both {
        let rust = theirs(caught(|| self.theirs.disconnect(id).into()));
        let answer = self.ours.disconnect(id);
        (rust, mine(&answer, &self.ours.lent.out, &[]))
    }

    pub fn update(&mut self, secs: u64, nanos: u32) {
        self.theirs.update(Duration::new(secs, nanos));
        assert_eq!(self.ours.update([secs, nanos.into()])[0], 1);
    }

    /// What both came to: the Rust's refusals are nothing, and ours are numbered.
    pub fn agreed(&mut self, from: SocketAddr, datagram: &[u8]) -> Came {
        let (rust, ours) = self.datagram(from, datagram);
        match ours {
            Came::Refused(_) => assert_eq!(rust, Came::Nothing),
            _ => assert_eq!(rust, ours),
        }
        self.agree();
        ours
    }

    /// The challenge that a request gets.
    pub fn challenge(&mut self, id: u64, from: SocketAddr) -> Vec<u8> {
        match self.agreed(from, &request(&token(id), 100)) {
            Came::ToSend(to, challenge) if to == from => challenge,
            other => panic!("no challenge but {other:?}"),
        }
    }

    pub fn connect(&mut self, id: u64, from: SocketAddr) {
        let challenge = self.challenge(id, from);
        let came = self.agreed(from, &response(&challenge));
        assert!(matches!(came, Came::Connected(..)), "{came:?}");
    }

    /// Changes the words of a slot on both sides.
    pub fn poke(&mut self, place: usize, change: impl Fn(&mut Words)) {
        let mut row = lives::slot(&self.theirs, place).expect("a used slot");
        change(&mut row.2);
        lives::put_slot(&mut self.theirs, place, Some(&row));
        let body = &mut self.ours.lent.slots[5 * self.slots + 305 * place..][..305];
        change(body.try_into().expect("a body's words"));
        self.agree();
    }

    /// Changes the words of the one that waits, in our first pending place, on both sides.
    pub fn poke_pending(&mut self, from: SocketAddr, change: impl Fn(&mut Words)) {
        let mut row = lives::pending_at(&self.theirs, from).expect("one who waits");
        change(&mut row.2);
        lives::put_pending(&mut self.theirs, &row);
        let body = &mut self.ours.lent.pending[5 * PENDING..][..305];
        change(body.try_into().expect("a body's words"));
        self.agree();
    }

    /// The global counter and the challenge's.
    pub fn put_counters(&mut self, counters: [u64; 2]) {
        lives::put_counters(&mut self.theirs, counters);
        self.ours.lent.record[COUNTERS..][..2].copy_from_slice(&counters);
    }

    /// Ours.
    pub fn counters(&self) -> [u64; 2] {
        let [global, challenge] = self.ours.lent.record[COUNTERS..][..2] else {
            unreachable!("two words")
        };
        [global, challenge]
    }

    /// How many wait, on the Rust's side and ours.
    pub fn waiting(&self) -> [usize; 2] {
        let places = self.ours.lent.pending.len() / 310;
        let marks = &self.ours.lent.pending[..places];
        let ours = marks.iter().filter(|mark| **mark != 0).count();
        [lives::pending_count(&self.theirs), ours]
    }

    /// How many token entries are used, on the Rust's side and ours.
    pub fn entries(&self) -> [usize; 2] {
        let marks = &self.ours.lent.entries[..ENTRIES];
        let ours = marks.iter().filter(|mark| **mark != 0).count();
        [kept(&self.theirs).used_entries, ours]
    }

    /// Every word of the slots and of those that wait, and both counters, are the same.
    pub fn agree(&self) {
        for place in 0..self.slots {
            let theirs = lives::slot(&self.theirs, place);
            assert_eq!(theirs, self.row(&self.ours.lent.slots, place));
        }
        let places = self.ours.lent.pending.len() / 310;
        let rows = (0..places).filter_map(|place| self.row(&self.ours.lent.pending, place));
        for row in rows {
            assert_eq!(lives::pending_at(&self.theirs, row.1).as_ref(), Some(&row));
        }
        let [rust, ours] = self.waiting();
        assert_eq!(rust, ours);
        assert_eq!(lives::counters(&self.theirs), self.counters());
    }

    /// What stands in a place of a table of ours.
    fn row(&self, table: &[u64], place: usize) -> Option<lives::Row> {
        let n = table.len() / 310;
        let socket = crate::came::socket(&table[2 * n + 3 * place..]);
        let body = &table[5 * n + 305 * place..][..305];
        let body = body.try_into().expect("a body's words");
        (table[place] != 0).then(|| (table[n + place], socket, body))
    }
}
