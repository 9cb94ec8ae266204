//! Challenge tokens, made and read with the host played in between.

use crate::host::{self, Ask};
use crate::packets::{note, seal, unwritten, Encoded};
use crate::{calls, Desk, Told, ASKED, DONE, REFUSED, UNTOLD, UNWRITTEN};

/// What became of a call to decode a challenge token, and of its answer.
#[derive(Debug, Clone)]
pub struct Proved {
    /// The refusal's number, 0 for none.
    pub number: u64,
    pub client: u64,
    pub user: [u8; 256],
    pub ask: Option<Ask>,
    /// The buffer between call and answer, before the cipher worked on it.
    pub at_ask: Option<Vec<u8>>,
    pub token: Vec<u8>,
    pub first: Desk,
    pub last: Desk,
    pub told: Told,
    pub broken: Option<String>,
}

/// A token into `out` from index `at`, sealed there.
pub fn generate_challenge(
    mut out: Vec<u8>,
    at: usize,
    client: u64,
    user: &[u8; 256],
    sequence: u64,
    key: &[u8; 32],
) -> Encoded {
    let (mut desk, mut told) = (UNWRITTEN, UNTOLD);
    calls::generate_challenge(
        &mut out, at, client, user, sequence, key, &mut desk, &mut told,
    );
    seal(out, desk, told)
}

/// The token that stands in `token` from index `at`.
pub fn decode_challenge(token: Vec<u8>, at: usize, sequence: u64, key: &[u8; 32]) -> Proved {
    let (mut desk, mut told) = (UNWRITTEN, UNTOLD);
    calls::decode_challenge(&token, at, sequence, key, &mut desk, &mut told);
    let mut proved = Proved {
        number: 0,
        client: 0,
        user: [0; 256],
        ask: None,
        at_ask: None,
        token,
        first: desk,
        last: desk,
        told,
        broken: None,
    };
    if desk[0] == ASKED {
        let work = answer_challenge(&mut proved);
        proved.broken = work.err();
    }
    proved.settle();
    proved
}

fn answer_challenge(proved: &mut Proved) -> Result<(), String> {
    let mut ask = host::ask_on(&proved.first, &proved.told, &proved.token)?;
    proved.at_ask = Some(proved.token.clone());
    host::answer(&mut ask, &mut proved.token);
    let opened = proved.token.clone();
    proved.user = [0xA5; 256];
    calls::answer_challenge(
        &proved.token,
        ask.granted,
        &mut proved.last,
        &mut proved.user,
    );
    proved.ask = Some(ask);
    unwritten(&opened, &proved.token)
}

impl Proved {
    fn settle(&mut self) {
        match self.last[0] {
            REFUSED => self.number = self.last[1],
            DONE => self.client = self.last[4],
            other => note(&mut self.broken, format!("the desk ends with {other}")),
        }
    }
}
