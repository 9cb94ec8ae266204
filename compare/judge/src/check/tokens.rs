//! Challenge tokens, made and read, and the host's answers. The Rust's stand in arrays of their own,
//! ours in a lent buffer from an index on.

use chacha20poly1305::watch::{refuse_seals, Asked};
use oracle::calls as rust;
use oracle::calls::{Answer, Fault};
use ours::{Encoded, Proved, ASKED, DONE};

use super::encode::{asked_desk, done_desk};
use super::{did, ours_did, refused_desk, Did, Diff, Report, Verdict};
use crate::case::{Call, Challenge, Proof};

const TOKEN: usize = 300;

pub fn challenge(case: &Challenge) -> Report {
    refuse_seals(case.refused);
    let answer = rust::generate_challenge(case.client, &case.user, case.sequence, &case.key);
    let ours = ours::generate_challenge(
        case.out.clone(),
        case.at,
        case.client,
        &case.user,
        case.sequence,
        &case.key,
    );
    refuse_seals(false);
    let mut diff = Diff::default();
    diff.broken(&ours.broken);
    let theirs = match answer {
        Answer::Is((result, asked)) => {
            made(case, &result, asked.first(), &ours, &mut diff);
            did(Call::Challenge, &result)
        }
        Answer::Panicked { .. } => {
            diff.fail("the Rust panicked in the domain");
            Did::Panicked
        }
    };
    Report::new(
        theirs,
        ours_did(ours.number, &ours.broken),
        diff.verdict(Verdict::Equal),
    )
}

fn made(
    case: &Challenge,
    result: &Result<[u8; TOKEN], Fault>,
    asked: Option<&Asked>,
    ours: &Encoded,
    diff: &mut Diff,
) {
    let Some(asked) = asked else {
        return diff.fail("the Rust did not ask its cipher");
    };
    let (at, end) = (case.at, case.at + TOKEN);
    diff.ask(Some((asked, at)), ours.ask.as_ref());
    diff.told(Some(asked), &ours.told);
    let mut out = case.out.clone();
    out[at..end - 16].copy_from_slice(&asked.text);
    if let Some(at_ask) = &ours.at_ask {
        diff.bytes("buffer at the ask", &out, at_ask);
    }
    let first = asked_desk(at, end, case.out.len(), 0);
    diff.desk("desk after the call", &first, &ours.first);
    let last = match result {
        Ok(token) => {
            out[at..end].copy_from_slice(token);
            done_desk(end)
        }
        Err(fault) => refused_desk(super::number(Call::Challenge, *fault)),
    };
    diff.desk("desk at the end", &last, &ours.last);
    diff.bytes("buffer", &out, &ours.out);
}

pub fn proof(case: &Proof) -> Report {
    let end = case.at + TOKEN;
    let token: &[u8; TOKEN] = case.token[case.at..end].try_into().expect("300 bytes");
    let answer = rust::decode_challenge(token, case.sequence, &case.key);
    let ours = ours::decode_challenge(case.token.clone(), case.at, case.sequence, &case.key);
    let mut diff = Diff::default();
    diff.broken(&ours.broken);
    let theirs = match answer {
        Answer::Is((result, asked)) => {
            proved(case, &result, asked.first(), &ours, &mut diff);
            did(Call::Proof, &result)
        }
        Answer::Panicked { .. } => {
            diff.fail("the Rust panicked in the domain");
            Did::Panicked
        }
    };
    Report::new(
        theirs,
        ours_did(ours.number, &ours.broken),
        diff.verdict(Verdict::Equal),
    )
}

fn proved(
    case: &Proof,
    result: &Result<(u64, [u8; 256]), Fault>,
    asked: Option<&Asked>,
    ours: &Proved,
    diff: &mut Diff,
) {
    let Some(asked) = asked else {
        return diff.fail("the Rust did not ask its cipher");
    };
    let (at, len) = (case.at as u64, case.token.len() as u64);
    diff.ask(Some((asked, case.at)), ours.ask.as_ref());
    diff.told(Some(asked), &ours.told);
    if let Some(at_ask) = &ours.at_ask {
        diff.bytes("buffer at the ask", &case.token, at_ask);
    }
    let mut first = [0; 16];
    first[0] = ASKED;
    first[8..].copy_from_slice(&[0, 0, at, at + TOKEN as u64, 1, 0, at, len]);
    diff.desk("desk after the call", &first, &ours.first);
    let (mut last, client, user) = match result {
        Ok((client, user)) => ([0; 16], *client, *user),
        Err(fault) => (
            refused_desk(super::number(Call::Proof, *fault)),
            0,
            [0; 256],
        ),
    };
    if result.is_ok() {
        last[0] = DONE;
        last[4] = client;
    }
    diff.desk("desk at the end", &last, &ours.last);
    diff.number("client", client, ours.client);
    diff.bytes("user data", &user, &ours.user);
    opened(case, asked, ours, diff);
}

/// What lies around the token, its tag, and a token with a wrong tag stay as they were.
fn opened(case: &Proof, asked: &Asked, ours: &Proved, diff: &mut Diff) {
    let (text, end) = (case.at..case.at + TOKEN - 16, case.at + TOKEN - 16);
    let (given, left) = (&case.token, &ours.token);
    if !asked.granted {
        return diff.bytes("buffer", given, left);
    }
    diff.bytes(
        "before the token",
        &given[..text.start],
        &left[..text.start],
    );
    diff.bytes("from the tag on", &given[end..], &left[end..]);
}
