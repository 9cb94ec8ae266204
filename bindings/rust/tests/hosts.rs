//! A cipher of one's own that says no, or panics, at each of the ten places of a pump's life where it works. No call leaves a half-done
//! server: the next pump's life on it is whole.

mod plant;

use std::panic::{catch_unwind, AssertUnwindSafe};
use std::time::Duration;

use netcode::{Cipher, NetcodeServer, Part, ServerResult, Sodium, Terms};
use plant::{ours, Pump, Setting};

/// Works, but for one time.
struct Moody {
    sodium: Sodium,
    works: usize,
    fails_at: usize,
    panics: bool,
}

impl Moody {
    fn fails(&mut self) -> bool {
        let fails = self.works == self.fails_at;
        self.works += 1;
        assert!(!(fails && self.panics), "the cipher panics");
        fails
    }
}

impl Cipher for Moody {
    fn open(&mut self, terms: &Terms<'_>, part: Part<'_>) -> bool {
        !self.fails() && self.sodium.open(terms, part)
    }

    fn seal(&mut self, terms: &Terms<'_>, part: Part<'_>) -> bool {
        !self.fails() && self.sodium.seal(terms, part)
    }
}

struct Life {
    server: NetcodeServer<Moody>,
    pump: Pump,
}

/// A packet of the handshake, and whether the answer is what the pump waits for.
fn shakes_hands(life: &mut Life) -> bool {
    let mut packet = life.pump.asks();
    match life.server.process_packet(life.pump.addr, &mut packet) {
        ServerResult::PacketToSend { payload, .. }
        | ServerResult::ClientConnected { payload, .. } => {
            life.pump.reads(payload.to_vec());
            true
        }
        _ => false,
    }
}

fn reports(life: &mut Life) -> bool {
    let mut packet = life.pump.reports(b"12.5");
    let result = life.server.process_packet(life.pump.addr, &mut packet);
    matches!(
        result,
        ServerResult::Payload {
            payload: b"12.5",
            ..
        }
    )
}

fn is_told(life: &mut Life) -> bool {
    let sent = life.server.generate_payload_packet(life.pump.id, b"dose");
    sent.is_ok()
}

fn is_kept_alive(life: &mut Life) -> bool {
    life.server.update(Duration::from_millis(250));
    let result = life.server.update_client(life.pump.id);
    matches!(result, ServerResult::PacketToSend { .. })
}

fn is_sent_away(life: &mut Life) -> bool {
    let result = life.server.disconnect(life.pump.id);
    let ServerResult::ClientDisconnected { payload, .. } = result else {
        panic!("{result:?}");
    };
    payload.is_some()
}

const CALLS: [fn(&mut Life) -> bool; 6] = [
    shakes_hands,
    shakes_hands,
    reports,
    is_told,
    is_kept_alive,
    is_sent_away,
];

/// For each work of the cipher, which call it belongs to, and the number of its refusal.
const WORKS: [(usize, u8); 10] = [
    (0, 8),
    (0, 24),
    (0, 24),
    (1, 8),
    (1, 8),
    (1, 24),
    (2, 8),
    (3, 24),
    (4, 24),
    (5, 24),
];

fn life(fails_at: usize, panics: bool) -> Life {
    let cipher = Moody {
        sodium: Sodium::new(),
        works: 0,
        fails_at,
        panics,
    };
    let config = ours::config(&Setting::of(2));
    let server = NetcodeServer::with_cipher(config, netcode::generate_random_bytes(), cipher);
    Life {
        server: server.expect("a server"),
        pump: Pump::new(1),
    }
}

fn number(life: &Life) -> u8 {
    life.server.refusal().map_or(0, |refusal| refusal.number())
}

/// Makes calls until one fails, and gives which.
fn fails(life: &mut Life, panics: bool) -> Option<usize> {
    CALLS.iter().position(|call| {
        let came = catch_unwind(AssertUnwindSafe(|| call(life)));
        assert!(came.is_ok() || panics);
        !came.unwrap_or(false)
    })
}

fn next_life_is_whole(life: &mut Life) {
    life.pump = Pump::new(2);
    for call in CALLS {
        assert!(call(life));
        assert_eq!(number(life), 0);
    }
    assert!(!life.server.is_client_connected(2));
}

#[test]
fn a_cipher_that_says_no() {
    for (work, (call, refused)) in WORKS.into_iter().enumerate() {
        let mut life = life(work, false);
        assert_eq!(fails(&mut life, false), Some(call));
        assert_eq!(number(&life), refused);
        next_life_is_whole(&mut life);
    }
}

#[test]
fn a_cipher_that_panics() {
    for (work, (call, refused)) in WORKS.into_iter().enumerate() {
        let mut life = life(work, true);
        assert_eq!(fails(&mut life, true), Some(call));
        assert_eq!(number(&life), refused);
        next_life_is_whole(&mut life);
    }
}

#[test]
fn ten_works_and_no_more() {
    let mut life = life(WORKS.len(), true);
    assert_eq!(fails(&mut life, true), None);
}
