//! Ours alone, held to document 01 where the Rust has no counterpart: answers without an ask (17),
//! with another buffer (18), too few bytes beside a packet (9), no room for a token (14).

use ours::{calls, Desk, Packet, Told, Window, UNTOLD, UNWRITTEN};

use crate::check::{refused_desk, Diff, Verdict};
use crate::make::{advance, count_of, pattern, reached, Parts};
use crate::random::sequence;
use crate::rng::Rng;

const ROUNDS: u64 = 3000;

/// How many runs there were, or what was wrong.
pub fn run(rng: &mut Rng) -> Result<u64, String> {
    let sorts = [seals, opens, proofs, unasked, refusals, fields];
    for _ in 0..ROUNDS {
        for sort in sorts {
            let mut diff = Diff::default();
            sort(rng, &mut diff);
            if let Verdict::Different(what) = diff.verdict(Verdict::Equal) {
                return Err(format!("ours alone is not as document 01 says:\n{what}"));
            }
        }
    }
    Ok(ROUNDS * sorts.len() as u64)
}

/// A length that is not this one.
fn other(rng: &mut Rng, len: usize) -> usize {
    match rng.below(3) {
        0 if len > 0 => rng.below(len),
        1 if len > 0 => len - 1,
        _ => len + 1 + rng.below(20),
    }
}

/// The desk of an 18: refused, no ask, and what was kept stays.
fn still_open(asked: &Desk) -> Desk {
    let mut desk = refused_desk(18);
    desk[12..].copy_from_slice(&asked[12..]);
    desk
}

/// A payload up to its ask: the buffer, the packet's length, and the desk.
fn to_be_sealed(rng: &mut Rng) -> (Vec<u8>, usize, Desk) {
    let (sequence, len) = (sequence(rng), rng.below(60));
    let bytes = rng.bytes(len);
    let packet = Packet {
        kind: 5,
        a: 0,
        b: 0,
        bytes: &bytes,
    };
    let need = 17 + count_of(sequence) + len;
    let mut out = pattern(need + rng.below(4), rng.next());
    let (mut desk, mut told) = (UNWRITTEN, UNTOLD);
    let key = Some(rng.array());
    let key = key.as_ref();
    calls::encode(&mut out, &packet, 7, key, sequence, &mut desk, &mut told);
    (out, need, desk)
}

fn seals(rng: &mut Rng, diff: &mut Diff) {
    let (out, need, asked) = to_be_sealed(rng);
    let (mut desk, left) = (asked, out.clone());
    let wrong = pattern(other(rng, out.len()), rng.next());
    let granted = rng.one_in(2);
    calls::answer_seal(&wrong, granted, &mut desk);
    diff.desk("another buffer for a seal", &still_open(&asked), &desk);
    calls::answer_seal(&out, granted, &mut desk);
    let mut done = [0; 16];
    (done[0], done[1]) = (2, need as u64);
    let expected = if granted { done } else { refused_desk(24) };
    diff.desk("the right buffer after it", &expected, &desk);
    let mut beyond = asked;
    beyond[14] = out.len() as u64 + 1 + rng.number() / 2;
    desk = beyond;
    calls::answer_seal(&out, granted, &mut desk);
    let expected = still_open(&beyond);
    diff.desk("a seal kept with its end past the buffer", &expected, &desk);
    diff.bytes("the buffer after its answers", &left, &out);
}

/// A windowed packet up to its ask: the datagram, its sequence, the window, and the desk.
fn to_be_opened(rng: &mut Rng) -> (Vec<u8>, u64, Window, Desk) {
    let key = rng.array();
    let highest = 1000 + rng.next() % 1000;
    let mut window: Window = *reached(highest, 2);
    let sequence = highest + 1 + rng.next() % 300;
    let kind = rng.pick(&[4, 5, 6]);
    let datagram = Parts::new(kind, sequence, rng.bytes(8)).seal(7, &key);
    let (mut desk, mut told) = (UNWRITTEN, UNTOLD);
    let key = Some(&key);
    calls::decode(&datagram, 7, key, true, &mut window, &mut desk, &mut told);
    (datagram, sequence, window, desk)
}

fn opens(rng: &mut Rng, diff: &mut Diff) {
    let (datagram, sequence, window, asked) = to_be_opened(rng);
    let (mut desk, mut after) = (asked, window);
    let wrong = pattern(other(rng, datagram.len()), rng.next());
    calls::answer_open(&wrong, true, &mut after, rng.one_in(2), &mut desk);
    diff.desk("another datagram for an open", &still_open(&asked), &desk);
    diff.window("the window after an 18", Some(&window), Some(&after));
    let mut beyond = asked;
    beyond[14] = datagram.len() as u64 - 15 + rng.number() / 2;
    let mut kept = beyond;
    calls::answer_open(&datagram, true, &mut after, true, &mut kept);
    let expected = still_open(&beyond);
    diff.desk(
        "an open kept with a place that is not there",
        &expected,
        &kept,
    );
    diff.window("the window after it", Some(&window), Some(&after));
    calls::answer_open(&datagram, true, &mut after, true, &mut desk);
    diff.number("the right datagram after it", 2, desk[0]);
    diff.number("its sequence", sequence, desk[2]);
    let mut advanced = window;
    advance(&mut advanced, sequence);
    diff.window("the window after a yes", Some(&advanced), Some(&after));
}

fn proofs(rng: &mut Rng, diff: &mut Diff) {
    let key = rng.array();
    let at = rng.below(20);
    let token = pattern(at + 300 + rng.below(20), rng.next());
    let (mut desk, mut told) = (UNWRITTEN, UNTOLD);
    calls::decode_challenge(&token, at, sequence(rng), &key, &mut desk, &mut told);
    let asked = desk;
    let wrong = pattern(other(rng, token.len()), rng.next());
    let mut user = [1; 256];
    calls::answer_challenge(&wrong, rng.one_in(2), &mut desk, &mut user);
    diff.desk("another buffer for a token", &still_open(&asked), &desk);
    diff.bytes("no user data", &[0; 256], &user);
    calls::answer_challenge(&token, true, &mut desk, &mut user);
    let mut done = [0; 16];
    done[0] = 2;
    let client = token[at..at + 8].try_into().expect("eight bytes");
    done[4] = u64::from_le_bytes(client);
    diff.desk("the right token after it", &done, &desk);
    diff.bytes("its user data", &token[at + 8..at + 264], &user);
}

/// A desk on which nothing is kept open, whatever else stands there.
fn unasked(rng: &mut Rng, diff: &mut Diff) {
    let mut given: Desk = [0; 16].map(|_: u64| rng.number());
    given[12] = 0;
    let buffer = pattern(rng.below(400), rng.next());
    let window = reached(rng.number() >> 1, 3);
    let mut after = *window;
    let (granted, mut user) = (rng.one_in(2), [1; 256]);
    let mut desk = given;
    calls::answer_seal(&buffer, granted, &mut desk);
    diff.desk("no seal is open", &refused_desk(17), &desk);
    desk = given;
    calls::answer_challenge(&buffer, granted, &mut desk, &mut user);
    diff.desk("no token is open", &refused_desk(17), &desk);
    diff.bytes("no user data", &[0; 256], &user);
    desk = given;
    calls::answer_open(&buffer, rng.one_in(2), &mut after, granted, &mut desk);
    diff.desk("no packet is open", &refused_desk(17), &desk);
    diff.window("the window after a 17", Some(&window), Some(&after));
}

fn refusals(rng: &mut Rng, diff: &mut Diff) {
    let key = rng.array();
    let (kind, wants, number) = rng.pick(&[
        (0, 1061, 9),
        (2, 300, 9),
        (3, 300, 9),
        (7, 50, 2),
        (255, 50, 2),
    ]);
    let lacking = 1 + rng.below(50);
    let bytes = rng.bytes(wants - lacking);
    let before = pattern(1400, rng.next());
    let packet = Packet {
        kind,
        a: rng.next(),
        b: rng.next(),
        bytes: &bytes,
    };
    refused(diff, number, &before, |out, desk, told| {
        calls::encode(out, &packet, 7, Some(&key), 9, desk, told)
    });
    let at = rng.below(2000);
    let room = (at + 299).min(rng.below(2300));
    let before = &pattern(room, rng.next());
    refused(diff, 14, before, |out, desk, told| {
        calls::generate_challenge(out, at, 3, &[5; 256], 9, &key, desk, told)
    });
    refused(diff, 9, before, |out, desk, told| {
        calls::decode_challenge(out, at, 9, &key, desk, told)
    });
    let past = usize::MAX - rng.below(400);
    refused(diff, 14, before, |out, desk, told| {
        calls::generate_challenge(out, past, 3, &[5; 256], 9, &key, desk, told)
    });
}

/// Refused by this number, nothing asked, the buffer as it was.
fn refused(
    diff: &mut Diff,
    number: u8,
    before: &[u8],
    call: impl FnOnce(&mut [u8], &mut Desk, &mut Told),
) {
    let mut out = before.to_vec();
    let (mut desk, mut told) = (UNWRITTEN, UNTOLD);
    call(&mut out, &mut desk, &mut told);
    diff.desk("desk of a refusal", &refused_desk(number), &desk);
    diff.told(None, &told);
    diff.bytes("buffer of a refusal", before, &out);
}

/// A field is what there is of it, and is copied only where it fits whole.
fn fields(rng: &mut Rng, diff: &mut Diff) {
    let which = rng.below(6) as u8;
    let len = rng.below(1500);
    let source = rng.bytes(len);
    let at = rng.mostly_below(len + 20, 8, usize::MAX);
    let end = rng.mostly_below(len + 20, 8, usize::MAX);
    let (offset, size) = match which {
        0 => (0, 13),
        1 => (29, 24),
        2 => (53, 1024),
        3 => (8, 300),
        _ => (0, end.saturating_sub(at)),
    };
    let start = at.saturating_add(offset).min(len);
    let field = &source[start..start.saturating_add(size).min(len)];
    let before = pattern(rng.below(2 * field.len() + 2), rng.next());
    let mut out = before.clone();
    let given = calls::field(which, &source, at, end, &mut out);
    diff.number("a field's length", field.len() as u64, given as u64);
    let mut expected = before;
    if field.len() <= expected.len() {
        expected[..field.len()].copy_from_slice(field);
    }
    diff.bytes("a field", &expected, &out);
}
