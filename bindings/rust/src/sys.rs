//! All of this crate's `unsafe`: the two C libraries behind functions that are safe with any arguments.

mod library;
mod server;
mod sodium;

pub use server::{Server, Setting};
pub use sodium::{open_stream, random, seal, start, subkey, verify};
