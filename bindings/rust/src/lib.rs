//! The server half of NETCODE 1.02, proved, under the names of renetcode 2.0.0: a program that used `renetcode::NetcodeServer` changes the
//! line that imports it. The work is done by `libnetcode.a`; this crate lends it memory, plays its host (cipher, private token, random
//! key) and gives its answers in renetcode's types.
//!
//! What renetcode only logs is here a number: [`NetcodeServer::refusal`] says why the last call came to nothing.

#![deny(unsafe_code, unsafe_op_in_unsafe_fn, missing_docs)]

mod address;
mod answer;
mod call;
mod cipher;
mod config;
mod error;
mod refusal;
mod result;
mod server;
mod sodium;
#[allow(unsafe_code)]
mod sys;
mod token;

pub use cipher::{Cipher, Nonce, Part, Terms};
pub use config::{ServerAuthentication, ServerConfig};
pub use error::NetcodeError;
pub use refusal::Refusal;
pub use result::ServerResult;
pub use server::NetcodeServer;
pub use sodium::Sodium;

/// The maximum number of bytes that a netcode packet can contain.
pub const NETCODE_MAX_PACKET_BYTES: usize = 1400;
/// The maximum number of bytes that a payload can have when generating a payload packet.
pub const NETCODE_MAX_PAYLOAD_BYTES: usize = 1300;
/// The number of bytes in a private key.
pub const NETCODE_KEY_BYTES: usize = 32;
/// The number of bytes of user data in a connect token.
pub const NETCODE_USER_DATA_BYTES: usize = 256;

/// Random bytes from libsodium, fit for keys.
pub fn generate_random_bytes<const N: usize>() -> [u8; N] {
    sys::start();
    let mut bytes = [0; N];
    sys::random(&mut bytes);
    bytes
}
