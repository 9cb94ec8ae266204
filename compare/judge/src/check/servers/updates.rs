//! The clock moved on, and what has expired by then; the limit.

use std::collections::BTreeSet;
use std::iter::empty;
use std::net::SocketAddr;
use std::time::Duration;

use oracle::servers::{self as rust, caught, Answer};
use ours::servers::{itself, set_max_clients, update as ours_update, CLOCK, LIMIT, PENDING};
use ours::tables::PLACE_WORDS;

use super::{record, refused, report, stepped, Class, Did, Diff, Report, NOTHING};
use crate::servers::{lent, place_address, waiting_words, Limit, Update, Waiting};
use crate::tables::{socket, Time};

/// The sorts of an update: how many of the used places stay; or, of all sorts, one expires in this very
/// second and one did in the second before. From `CARRY` on, with a second carried over the nanoseconds.
pub const NONE_PENDING: u8 = 0;
pub const ALL_STAY: u8 = 1;
pub const SOME_GO: u8 = 2;
pub const ALL_GO: u8 = 3;
pub const AT_THE_TURN: u8 = 4;
pub const CARRY: u8 = 5;

/// The sorts of a limit.
pub const ZERO: u8 = 0;
pub const BELOW: u8 = 1;
pub const AT_MOST: u8 = 2;
pub const CAPPED: u8 = 3;

/// What the Rust did: its clock, and who is still pending.
struct Theirs {
    answer: Answer<()>,
    clock: Duration,
    before: BTreeSet<SocketAddr>,
    after: BTreeSet<SocketAddr>,
}

impl Theirs {
    fn did(&self) -> Did {
        match self.answer {
            Answer::Is(()) => Did::Done,
            Answer::Panicked { .. } => Did::Panicked,
        }
    }

    fn dropped(&self, at: usize) -> bool {
        let address = address(at);
        self.before.contains(&address) && !self.after.contains(&address)
    }
}

pub fn update(case: &Update) -> Report {
    let places = case.table.all();
    let refusal = refusal(case);
    let asked = !matches!(refusal, Some((16 | 23, _)));
    let theirs = if asked { theirs(case, &places) } else { None };
    let mut diff = Diff::default();
    let mut before = record(case.clock, case.stage);
    before[PENDING] = case.fit.found(places.len()) as u64;
    let table = lent(waiting_words(&places), case.fit);
    let (mut expected, mut left) = (before, table.clone());
    if let (None, Some(theirs)) = (refusal, &theirs) {
        expected[CLOCK..][..2].copy_from_slice(&Time::from(theirs.clock).words());
        for at in (0..places.len()).filter(|at| theirs.dropped(*at)) {
            left[at] = 0;
        }
        if theirs.did() == Did::Panicked {
            diff.fail("the Rust panicked in the domain");
        }
    }
    let (mut ours, mut lent) = (before, table);
    let answer = ours_update(&mut ours, &mut lent, case.step.words());
    let said = refusal.map_or(NOTHING, |(number, _)| refused(number));
    diff.words("answer", &said, &answer);
    diff.words("the record after it", &expected, &ours);
    diff.table("pending after it", &left, &lent);
    let itself_says = [expected[LIMIT], expected[CLOCK], expected[CLOCK + 1]];
    diff.words("limit and clock asked for", &itself_says, &itself(&ours));
    let proper = case.clock.is_proper() && case.step.is_proper();
    let class = refusal.map(|(_, class)| class);
    let class = class.or((!proper).then_some(Class::LongNanos));
    let changed = theirs.as_ref().is_some_and(|theirs| {
        class == Some(Class::UpdateEnd)
            && (case.clock.duration() != Some(theirs.clock) || theirs.before != theirs.after)
    });
    let rust = theirs.as_ref().map_or(Did::Absent, Theirs::did);
    let mut report = report(rust, stepped(&answer), diff, class, changed);
    report.kind = case
        .after()
        .filter(|_| refusal.is_none())
        .map(|after| sort(case, &places, after));
    report
}

/// Document 01's number, in its order, and what it is outside the domain.
fn refusal(case: &Update) -> Option<(u8, Class)> {
    let found = case.fit.found(case.table.places);
    let words = case.fit.lent(PLACE_WORDS * case.table.places);
    let fits = (1..=4096).contains(&found) && words == PLACE_WORDS * found;
    match case.after() {
        _ if case.stage > 0 => Some((16, Class::AskOpen)),
        _ if !fits => Some((23, Class::OtherLength)),
        None => Some((20, Class::UpdateEnd)),
        Some(_) => None,
    }
}

/// The Rust at as many whole nanoseconds; none where it has no such time.
fn theirs(case: &Update, places: &[Waiting]) -> Option<Theirs> {
    let (clock, step) = (case.clock.duration()?, case.step.duration()?);
    let waiting = places
        .iter()
        .enumerate()
        .filter(|(_, place)| place.mark != 0);
    let waiting = waiting.map(|(at, place)| rust::Record {
        client_id: at as u64,
        addr: address(at),
        received: Duration::ZERO,
        user_data: [0; 256],
        expiry: place.expiry,
    });
    let mut server = rust::server_with(clock, 1, empty(), waiting);
    let before = rust::pending(&server);
    let answer = caught(|| server.update(step));
    Some(Theirs {
        answer,
        clock: server.current_time(),
        before,
        after: rust::pending(&server),
    })
}

fn address(at: usize) -> SocketAddr {
    socket(&place_address(at)).expect("well-formed")
}

fn sort(case: &Update, places: &[Waiting], after: Time) -> u8 {
    let used = || places.iter().filter(|place| place.mark != 0);
    let any = |expiry: u64| used().any(|place| place.expiry == expiry);
    let turn = any(after.secs) && after.secs.checked_sub(1).is_some_and(any);
    let gone = used().filter(|place| place.expiry < after.secs).count();
    let sort = match (used().count(), gone) {
        (0, _) => NONE_PENDING,
        _ if turn => AT_THE_TURN,
        (_, 0) => ALL_STAY,
        (used, gone) if used == gone => ALL_GO,
        _ => SOME_GO,
    };
    let carry = after.nanos < case.clock.nanos;
    sort + if carry { CARRY } else { 0 }
}

pub fn limit(case: &Limit) -> Report {
    let mut diff = Diff::default();
    let mut before = record(Time::new(5, 6), case.stage);
    before[LIMIT] = case.before;
    let mut server = rust::server_with(Duration::new(5, 6), case.before as usize, empty(), empty());
    let set = caught(|| server.set_max_clients(case.to as usize));
    let mut rust = match set {
        Answer::Is(()) => Did::Done,
        Answer::Panicked { .. } => Did::Panicked,
    };
    let class = (case.stage > 0).then_some(Class::AskOpen);
    let (mut expected, mut said) = (before, NOTHING);
    match class {
        None if rust == Did::Panicked => diff.fail("the Rust panicked in the domain"),
        None => expected[LIMIT] = server.max_clients() as u64,
        Some(_) => {
            said = refused(16);
            rust = Did::Absent;
        }
    }
    let mut ours = before;
    let answer = set_max_clients(&mut ours, case.to);
    diff.words("answer", &said, &answer);
    diff.words("the record after it", &expected, &ours);
    diff.words(
        "limit and clock asked for",
        &[expected[LIMIT], 5, 6],
        &itself(&ours),
    );
    let mut report = report(rust, stepped(&answer), diff, class, false);
    report.kind = class.is_none().then_some(match case.to {
        0 => ZERO,
        1..1024 => BELOW,
        1024 => AT_MOST,
        _ => CAPPED,
    });
    report
}
