//! What the last call came to, read from its answer and ask; nothing unsafe.

use std::ops::Range;

use super::Server;
use crate::answer::{Answer, Work};
use crate::cipher::{Nonce, Part, Terms};
use crate::sys::library::{Answered, Asked};
use crate::Refusal;

const NUMBER: usize = 1;
const NONCE_SIZE: usize = 10;
const ADDITIONAL_SIZE: usize = 11;
const PART_START: usize = 12;
const PART_END: usize = 13;

const KEY: usize = 0;
const NONCE: usize = 32;
const ADDITIONAL: usize = 56;

fn chunk<const N: usize>(ask: &Asked, at: usize) -> &[u8; N] {
    ask[at..].first_chunk().expect("inside the ask")
}

/// The last 16 bytes of a part are its tag.
fn part_of(part: &mut [u8]) -> Part<'_> {
    let (text, tag) = part.split_last_chunk_mut().expect("a part has its tag");
    Part { text, tag }
}

impl Server {
    pub fn answer(&self) -> Answer {
        Answer::in_words(&self.answer)
    }

    pub fn refusal(&self) -> Option<Refusal> {
        Refusal::from_number(self.answer[NUMBER])
    }

    /// What is asked for; none where the call has ended.
    pub fn work(&self) -> Option<Work> {
        Work::in_words(&self.answer)
    }

    /// What the work is done under.
    pub fn terms(&self) -> Terms<'_> {
        terms_in(&self.ask, &self.answer)
    }

    /// Where the work is to be done, with its tag.
    pub fn place(&self) -> Range<usize> {
        self.answer[PART_START] as usize..self.answer[PART_END] as usize
    }

    /// The part of the datagram that is to be opened.
    pub fn part<'b>(&self, datagram: &'b mut [u8]) -> Part<'b> {
        part_of(&mut datagram[self.place()])
    }

    /// What a seal is done under, and the part of the output that is to be sealed.
    pub fn sealing(&mut self) -> (Terms<'_>, Part<'_>) {
        let place = self.place();
        let terms = terms_in(&self.ask, &self.answer);
        (terms, part_of(&mut self.out[place]))
    }

    /// The packet that a call has made.
    pub fn packet(&mut self, end: usize) -> &mut [u8] {
        &mut self.out[..end]
    }
}

fn terms_in<'t>(ask: &'t Asked, words: &Answered) -> Terms<'t> {
    Terms {
        key: chunk(ask, KEY),
        nonce: match words[NONCE_SIZE] {
            24 => Nonce::Token(chunk(ask, NONCE)),
            _ => Nonce::Packet(chunk(ask, NONCE)),
        },
        additional: &ask[ADDITIONAL..][..words[ADDITIONAL_SIZE] as usize],
    }
}
