//! Smaller cases of challenge tokens.

use crate::case::{Case, Challenge, Proof};
use crate::make;
use crate::shrink::{numbers, zeroed};

pub fn simpler(case: &Case) -> Vec<Case> {
    match case {
        Case::Challenge(case) => challenges(case)
            .into_iter()
            .map(|case| Case::Challenge(Box::new(case)))
            .collect(),
        Case::Proof(case) => proofs(case).into_iter().map(Case::Proof).collect(),
        _ => Vec::new(),
    }
}

fn challenges(case: &Challenge) -> Vec<Challenge> {
    let mut tries = Vec::new();
    let mut with = |change: &dyn Fn(&mut Challenge)| {
        let mut less = case.clone();
        change(&mut less);
        if less != *case {
            tries.push(less);
        }
    };
    with(&|less| {
        less.out.drain(..less.at);
        less.at = 0;
    });
    with(&|less| less.out.truncate(less.at + 300));
    with(&|less| less.refused = false);
    with(&|less| less.key = [0; 32]);
    for number in numbers(case.client) {
        with(&|less| less.client = number);
    }
    for number in numbers(case.sequence) {
        with(&|less| less.sequence = number);
    }
    for user in zeroed(&case.user) {
        with(&|less| less.user.copy_from_slice(&user));
    }
    for out in zeroed(&case.out) {
        with(&|less| less.out = out.clone());
    }
    tries
}

fn proofs(case: &Proof) -> Vec<Proof> {
    let mut tries = Vec::new();
    let mut with = |change: &dyn Fn(&mut Proof)| {
        let mut less = case.clone();
        change(&mut less);
        if less != *case {
            tries.push(less);
        }
    };
    with(&|less| {
        less.token.drain(..less.at);
        less.at = 0;
    });
    with(&|less| less.token.truncate(less.at + 300));
    with(&|less| less.key = [0; 32]);
    for number in numbers(case.sequence) {
        with(&|less| less.sequence = number);
    }
    for token in zeroed(&case.token) {
        with(&|less| less.token = token.clone());
    }
    for resealed in resealed(case) {
        with(&|less| *less = resealed.clone());
    }
    tries
}

/// Smaller tokens under good tags, where the tag is good.
fn resealed(case: &Proof) -> Vec<Proof> {
    let (at, end) = (case.at, case.at + 300);
    let token = case.token[at..end].try_into().expect("300 bytes");
    let Some(text) = make::opened_token(token, case.sequence, &case.key) else {
        return Vec::new();
    };
    let seal = |text: &[u8], sequence, key| {
        let text = text.try_into().expect("284 bytes");
        let mut less = Proof {
            sequence,
            key,
            ..case.clone()
        };
        less.token[at..end].copy_from_slice(&make::token(text, sequence, &key));
        less
    };
    let mut tries = vec![seal(&text, case.sequence, [0; 32])];
    tries.extend(numbers(case.sequence).map(|sequence| seal(&text, sequence, case.key)));
    let less = zeroed(&text).into_iter();
    tries.extend(less.map(|text| seal(&text, case.sequence, case.key)));
    tries
}
