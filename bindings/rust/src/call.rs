use crate::answer::Work;
use crate::sys::Server;
use crate::token::PrivateConnectToken;
use crate::{Cipher, Part, NETCODE_USER_DATA_BYTES};

const PRIVATE_BYTES: usize = 1024;
const OPENED_BYTES: usize = PRIVATE_BYTES - 16;
const CHALLENGE_BYTES: usize = 300;

/// Where the user data stands in an opened challenge, after the client's id.
const USER_DATA: usize = 8;

/// A call that the library may have answered with an ask. Dropped before its end, as where a cipher panics, it says no to the ask that is
/// open, so that the next call finds no half-done server.
pub struct Call<'c, C: Cipher> {
    pub server: &'c mut Server,
    pub cipher: &'c mut C,
    /// Gets what the challenge carries, where one is opened.
    pub user_data: &'c mut [u8; NETCODE_USER_DATA_BYTES],
    pub datagram: &'c mut [u8],
}

impl<C: Cipher> Call<'_, C> {
    /// Answers asks until the call is over.
    pub fn settle(mut self) {
        while let Some(work) = self.server.work() {
            match work {
                Work::Packet => self.open_packet(),
                Work::Challenge => self.open_challenge(),
                Work::Token => self.open_token(),
                Work::Seal => self.seal(),
            }
        }
    }

    fn open_packet(&mut self) {
        let part = self.server.part(self.datagram);
        let granted = self.cipher.open(&self.server.terms(), part);
        self.server.answer_open(granted, self.datagram);
    }

    /// The library reads the opened challenge where it stands; then the caller's buffer is as renetcode leaves it, sealed.
    fn open_challenge(&mut self) {
        let place = self.server.place();
        let mut sealed = [0; CHALLENGE_BYTES];
        sealed.copy_from_slice(&self.datagram[place.clone()]);
        self.open_packet();
        let opened = &mut self.datagram[place];
        self.user_data
            .copy_from_slice(&opened[USER_DATA..][..NETCODE_USER_DATA_BYTES]);
        opened.copy_from_slice(&sealed);
    }

    /// Opened in a copy, so that the caller's buffer stays sealed, as renetcode leaves it.
    fn open_token(&mut self) {
        let mut bytes = [0; PRIVATE_BYTES];
        bytes.copy_from_slice(&self.datagram[self.server.place()]);
        let (text, tag) = bytes.split_last_chunk_mut().expect("it is longer");
        let part = Part { text, tag };
        let granted = self.cipher.open(&self.server.terms(), part);
        let opened = granted.then(|| PrivateConnectToken::read(&bytes[..OPENED_BYTES]));
        self.server
            .answer_token(opened.flatten().as_ref(), self.datagram);
    }

    fn seal(&mut self) {
        let (terms, part) = self.server.sealing();
        let granted = self.cipher.seal(&terms, part);
        self.server.answer_seal(granted);
    }
}

impl<C: Cipher> Drop for Call<'_, C> {
    fn drop(&mut self) {
        match self.server.work() {
            None => {}
            Some(Work::Packet | Work::Challenge) => self.server.answer_open(false, self.datagram),
            Some(Work::Token) => self.server.answer_token(None, self.datagram),
            Some(Work::Seal) => self.server.answer_seal(false),
        }
    }
}
