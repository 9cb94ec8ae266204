//! Not in the real crate: what the cipher was asked on this thread, so that a harness can compare
//! the asks of two programs and not only their results.

use std::cell::{Cell, RefCell};

#[derive(Debug, Clone, PartialEq, Eq)]
pub struct Asked {
    pub seal: bool,
    pub key: [u8; 32],
    /// 12 or 24 bytes.
    pub nonce: Vec<u8>,
    pub additional: Vec<u8>,
    /// The buffer as it was handed in, without the tag.
    pub text: Vec<u8>,
    /// The tag to check, for an open only.
    pub tag: Option<[u8; 16]>,
    /// The buffer's address, so that a harness can tell its offset in a datagram.
    pub place: usize,
    pub granted: bool,
}

thread_local! {
    static RECORDING: Cell<bool> = const { Cell::new(false) };
    static REFUSING: Cell<bool> = const { Cell::new(false) };
    static REFUSED: Cell<Option<usize>> = const { Cell::new(None) };
    static COUNT: Cell<usize> = const { Cell::new(0) };
    static RECORD: RefCell<Vec<Asked>> = const { RefCell::new(Vec::new()) };
}

/// Empties the record and switches recording on.
pub fn start() {
    RECORD.take();
    COUNT.set(0);
    RECORDING.set(true);
}

/// Gives what was asked since `start` and switches recording off.
pub fn take() -> Vec<Asked> {
    RECORDING.set(false);
    RECORD.take()
}

/// While on, every seal fails and leaves its buffer alone; the real crate does so only for texts
/// that are too long to try.
pub fn refuse_seals(on: bool) {
    REFUSING.set(on);
}

/// The ask of this number, counted from `start`, seal or open, fails and leaves its buffer alone; none where it is `None`.
pub fn refuse_at(ask: Option<usize>) {
    REFUSED.set(ask);
}

/// Whether this seal, the next of all asks, is to fail.
#[cfg(not(feature = "idle"))]
pub(crate) fn seal_is_refused() -> bool {
    ask_is_refused() || REFUSING.get()
}

/// Whether this ask, the next of all, is to fail.
#[cfg(not(feature = "idle"))]
pub(crate) fn ask_is_refused() -> bool {
    let number = COUNT.get();
    COUNT.set(number + 1);
    REFUSED.get() == Some(number)
}

/// Takes a closure so that nothing is allocated while recording is off.
#[cfg(not(feature = "idle"))]
pub(crate) fn note(ask: impl FnOnce() -> Asked) {
    if RECORDING.get() {
        RECORD.with_borrow_mut(|record| record.push(ask()));
    }
}
