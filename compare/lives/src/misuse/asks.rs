//! While an ask is open.

use super::{as_it_is, Tried, GOOD};
use crate::addresses::{three_words, Wire};
use crate::counts::Counts;
use crate::host::{nobody, Kind};
use crate::ours::{Lent, Ours};

/// While an ask is open: calls are 16, answers of another kind or length 18, or 23.
pub fn at_ask(ours: &mut Ours, kind: Kind, counts: &mut Counts) -> Result<(), String> {
    let mut tried = Tried::new(ours, counts);
    calls_out_of_turn(&mut tried)?;
    answers_of_another_kind(&mut tried, kind)?;
    match kind {
        Kind::Open => unfit_opens(&mut tried),
        Kind::Token => unfit_tokens(&mut tried),
        Kind::Seal => unfit_seals(&mut tried),
    }
}

/// 16 comes before all that is wrong besides.
fn calls_out_of_turn(tried: &mut Tried) -> Result<(), String> {
    let wrong = Wire { kind: 5, ..GOOD };
    tried.refuses(
        "update",
        16,
        |lent| lent.pending = 0,
        |ours| ours.update(1, 0),
    )?;
    tried.refuses("set_max_clients", 16, as_it_is, |ours| {
        ours.set_max_clients(1)
    })?;
    let nothing = |lent: &mut Lent| (lent.out, lent.slots, lent.datagram) = (0, 0, 0);
    tried.refuses("process_packet", 16, nothing, |ours| {
        ours.process_packet(&wrong)
    })?;
    tried.refuses("process_packet", 16, as_it_is, |ours| {
        ours.process_packet(&GOOD)
    })?;
    let long = [0; 1301];
    let payload = |ours: &mut Ours| ours.generate_payload_packet(1, &long);
    tried.refuses("generate_payload_packet", 16, nothing, payload)?;
    tried.refuses("update_client", 16, nothing, |ours| ours.update_client(1))?;
    tried.refuses("disconnect", 16, nothing, |ours| ours.disconnect(1))
}

/// 18, and 23 before it.
fn answers_of_another_kind(tried: &mut Tried, kind: Kind) -> Result<(), String> {
    let short = |lent: &mut Lent| lent.slots -= 1;
    let open = |ours: &mut Ours| ours.answer_open(true);
    let token = |ours: &mut Ours| ours.answer_token(true, &nobody(), &[]);
    let seal = |ours: &mut Ours| ours.answer_seal(true);
    if kind != Kind::Open {
        tried.refuses("answer_open", 18, as_it_is, open)?;
        tried.refuses("answer_open", 23, short, open)?;
    }
    if kind != Kind::Token {
        tried.refuses("answer_token", 18, as_it_is, token)?;
        tried.refuses("answer_token", 23, short, token)?;
    }
    if kind != Kind::Seal {
        tried.refuses("answer_seal", 18, as_it_is, seal)?;
        tried.refuses("answer_seal", 23, short, seal)?;
    }
    Ok(())
}

fn unfit_opens(tried: &mut Tried) -> Result<(), String> {
    let open = |ours: &mut Ours| ours.answer_open(true);
    tried.refuses("answer_open", 18, |lent| lent.datagram -= 1, open)?;
    tried.refuses("answer_open", 18, |lent| lent.out -= 1, open)?;
    tried.refuses("answer_open", 23, |lent| lent.slots -= 310, open)?;
    tried.refuses("answer_open", 23, |lent| lent.pending -= 1, open)
}

fn unfit_seals(tried: &mut Tried) -> Result<(), String> {
    let seal = |ours: &mut Ours| ours.answer_seal(true);
    tried.refuses("answer_seal", 18, |lent| lent.out -= 1, seal)?;
    tried.refuses("answer_seal", 23, |lent| lent.slots -= 310, seal)?;
    tried.refuses("answer_seal", 23, |lent| lent.pending -= 310, seal)
}

/// Lengths, then fields: 33 addresses, one of kind 5, one of kind 4 with a fifth byte, words that are no whole number of them.
fn unfit_tokens(tried: &mut Tried) -> Result<(), String> {
    let token = |ours: &mut Ours| ours.answer_token(true, &nobody(), &[]);
    tried.refuses("answer_token", 18, |lent| lent.datagram -= 1, token)?;
    tried.refuses("answer_token", 18, |lent| lent.out -= 1, token)?;
    tried.refuses("answer_token", 23, |lent| lent.entries -= 48, token)?;
    tried.refuses("answer_token", 23, |lent| lent.pending -= 1, token)?;
    tried.refuses("answer_token", 23, |lent| lent.public -= 3, token)?;
    tried.refuses("answer_token", 23, |lent| lent.public -= 1, token)?;
    let one = three_words(([1, 2, 3, 4], 5).into());
    let lists = [
        one.repeat(33),
        vec![5 * 65536, 0, 0],
        vec![4 * 65536, 1 << 32, 0],
        vec![4 * 65536, 0, 1],
        [&one[..], &[0]].concat(),
    ];
    for list in &lists {
        let given = |ours: &mut Ours| ours.answer_token(true, &nobody(), list);
        tried.refuses("answer_token", 18, as_it_is, given)?;
    }
    Ok(())
}
